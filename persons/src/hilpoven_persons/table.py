"""The subcommands of the package as data, in the form of `hilpoven.cli.table`."""

TABLE = """
[Look after the office]

person
  = names and passwords of an owner's people at the site
  Says which people of an owner may log in at its page, and what each may do there. None of them knows the owner's key.
  > person list

person add OWNER NAME:plain : administering.add
  --role ROLE :reads|orders|releases !  What the person may do: reads; orders places and cancels orders, too; releases
      also releases and rejects.
  --mail ADDRESS :plain ~  Where `hilpoven notify` writes to.
  --language LANGUAGE :en|de ~en  In which language it writes.
  --often OFTEN :daily|at-once ~daily  How often it writes: once a day, or at once when something new waits.
  --random =is_random  Makes the password, and asks and reads none.
  Adds a person of an owner. The password is one line on standard input, or typed twice; nothing there makes one, which
  is printed this once.
  > person add ACME jane --role releases --mail jane@acme.example

person list [OWNER] : administering.list_command
  +form
  Lists the persons of an owner, or of all.
  > person list ACME

person role NAME:plain ROLE:reads|orders|releases : administering.role_command
  Gives a person another role, from its next request on.
  > person role jane reads

person password NAME:plain : administering.password_command
  --random =is_random  Makes the password, and asks and reads none.
  Gives a person another password, as `person add` does, and ends its sessions.
  > person password jane

person remove NAME:plain : administering.remove
  Removes a person, who is out from the next request on.
  > person remove jane

person mail NAME:plain [ADDRESS]:plain : administering.mail_command
  --language LANGUAGE :en|de  In which language `hilpoven notify` writes.
  --often OFTEN :daily|at-once  How often it writes.
  Says where a person gets mail; without ADDRESS and options, nowhere.
  > person mail jane jane@acme.example --often at-once

person serve : serving.person_serve
  --socket PATH :path !  The socket at which nginx asks. Its folder says who may open it.
  Answers nginx, which asks whose session a request has, until it is ended.

  Only the office's user serves; the unit toll-persons@NAME does it, behind the site for owners.
  > person serve --socket /run/toll-persons/north/socket

notify : mailing
  = mails an owner's people what waits for them
  Mails persons what waits for their owner: lots to release, failed tests, and held lots. Nothing comes twice.

  Each gets it once a day, from 6 o'clock on, or at once, as `person mail` says, in its language. `sender` below [mail]
  of the settings is the address from which it comes; the machine's sendmail takes it. The timer toll-notify@NAME does
  it.
  > notify
"""
