"""The subcommands of the package as data, in the form of `hilpoven.cli.table`."""

TABLE = """
[Group of plants]

publish : publishing.publish_group
  --once  Sends what is new, and ends.
  --check =is_check  Says only how much the group has, and whether the office was set back.
  --accept-set-back ROWS =accepted :1..  Puts aside in the group so many rows that the office no longer has.
  = sends the office's rows to the database of a group of plants
  Sends the office's rows and notes to the group's database, and what is new each second, until it is ended.

  It reads a copy that follows FILE's log, so neither owners nor the plant wait. Each row comes once, whatever is lost
  on the way. An office that was set back, as by a restore, sends nothing until a person accepts with --accept-set-back
  that the group puts aside what the office no longer has. Only root and the office's user publish; the unit
  toll-publish@NAME does it.
  > publish --once

publish status : publishing.publish_status
  Shows since when the group has all of the office's rows. It exits with 1 if that is longer ago than `behind` of the
  settings says, or if something keeps rows from being sent.
  > publish status

publish verify : publishing.publish_verify
  --full =is_full  Compares a recall of each lot on hand, and not only of a sample.
  Compares the group's rows with the office's: the heads of hashes computed on both sides, what is noted, dispositions,
  what is on hand, and recalls of lots with those of toll. It exits with 1 if anything differs.
  > publish verify

publish digest OWNER : publishing.publish_digest
  +form
  Shows how many rows of an owner there are in each table of each file, and the head of their hashes, from the office's
  file alone. The owner compares them with those that the group shows it.
  > publish digest ACME

group
  = one recall across the offices of a group
  Asks the group's database, and says who belongs to the group.
  > group status

group init : grouping
  Makes the group's tables and roles in an empty database, which it makes too, as PostgreSQL's superuser.
  > group init

group office
  = adds offices
  Says which offices belong to the group.
  > group office add NORTH

group office add PLANT : grouping.office_add
  --host HOST :plain  How offices reach this machine; by default its full name.
  --gln GLN  Its Global Location Number, for exports; by default what the office describes of HOUSE.
  Adds an office, with the role as which it publishes, and tells what to do on its machine. The secret in that is told
  this once.
  > group office add NORTH --gln 4012345000009

group company
  = adds companies
  Says which companies belong to the group. A company is an owner of one or more offices.
  > group company add 'Acme Foods Ltd'

group company add COMPANY:filled : grouping.company_add
  --member OFFICE OWNER =owners :word,word *  Which owner of an office it is, as `group member add` notes it.
  --party OFFICE PARTY OTHER =parties :word,word,word *  A party of that owner is the office OTHER, as `group party`
      notes it.
  Adds a company, with the role as which the question service asks for it.
  > group company add 'Acme Foods Ltd' --member NORTH ACME --member SOUTH ACME-2 --party SOUTH NORTHCO NORTH

group member
  = says which company an owner is
  Says which company an owner of an office is.
  > group member add NORTH ACME 'Acme Foods Ltd'

group member add PLANT OWNER COMPANY:filled : grouping.member_add
  --since N :1..255 ~1  From which of the office's files on: its first is 1.
  Notes which company an owner of an office is. A later owner of the same name is another one, from a later file on.
  > group member add NORTH ACME 'Acme Foods Ltd'

group login
  = adds and removes logins of the question service
  Says who may ask the question service.
  > group login add jane --company 'Acme Foods Ltd'

group login add LOGIN : grouping.login_add
  --company COMPANY :filled  Whose rows the login sees; by default those of all, for the group's quality people.
  Adds a login of the question service, and prints its secret, which is told this once.
  > group login add jane --company 'Acme Foods Ltd'

group login remove LOGIN : grouping.login_remove
  Removes a login of the question service.
  > group login remove jane

group serve : grouping
  Answers questions over HTTP, each as the role of who asks, until it is ended. A proxy with TLS stands before it.
  > group serve

group party PLANT OWNER PARTY OFFICE : grouping.party
  Notes that a party of an owner is another office of the group, so that a recall goes on there.
  > group party NORTH ACME SOUTHCO SOUTH

group recall OFFICE OWNER LOT [WAY]=way:forward|back : grouping.recall
  --in FILE =file :plain ~  The lot of this file of the office, if several have one of the name.
  +form
  Lists the lots of all offices and years that a lot went into, or with `back` those that it was made of, each with its
  fewest steps and by what it was reached; then who got them.

  A receipt goes on from a shipment of another office if its party is that office, and if its supplier's lot is the lot
  that was shipped, or its document the shipment's. A receipt that matches several lots is followed to all, which is
  told. The last line names the office whose rows are oldest.
  > group recall NORTH ACME S-1 back

group ends : grouping
  +form
  Lists where a recall may end too early: receipts from offices of the group that match no shipment, shipments to them
  that nobody received, and lots of which more was received than shipped.
  > group ends

group join OFFICE OWNER LOT OTHER OTHER-OWNER OTHER-LOT : grouping
  --reason TEXT !  Why it is the same.
  Declares that OTHER-LOT of OTHER is, or contains, LOT of OFFICE, where no receipt says so.
  > group join NORTH ACME B-1 SOUTH ACME R-7 --reason 'the driver had no paper'

group export FORM:epcis|fsma OFFICE OWNER LOT [WAY]=way:forward|back : grouping.export
  Writes what happened to the lots of a recall: as events of EPCIS 2.0, in JSON-LD, or as the sortable spreadsheet of
  FSMA 204, in CSV.

  A row of an office has a day and no time, so an event's time is the beginning of its day in UTC. `uri` of the settings
  begins the names of lots.
  > group export epcis NORTH ACME S-1 > events.jsonld

group status : grouping
  +form
  Shows how old each office's rows are.
  > group status

group verify [OFFICE] : grouping
  Computes the heads of hashes of the rows that the group has, and compares them with those that offices told. It exits
  with 1 if any differs.
  > group verify
"""
