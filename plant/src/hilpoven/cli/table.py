"""The subcommands as data, from which their options, their helps and what the shell completes follow.

An entry begins with the words of a subcommand and its values, `METAVAR=name:type`. The name is that of the function's
parameter, by default the METAVAR in small letters. The type is one of `building.py`, by default that of the METAVAR in
KINDS. `_` stands for a blank, and `!` has one value or more be given. ` : module.function` is what does it, by default
the function of the subcommand's last word, and ` :: module.makers` what makes its subcommands. Below stand

    --option METAVAR =name :type ~default ! *   What it is for, behind two blanks; `!` is to be given, `*` may be again
    +name                                       The lines of the entry `.name`
    = text                                      What lists of subcommands say of it, if it isn't the first sentence
    > words                                     An example
    and what its help says, with a blank line between paragraphs

A line of `toll` (`core/grammar.py`) has an entry of its name for what may be noted beside it.
"""
import re
from collections.abc import Iterator
from functools import cached_property
from typing import NamedTuple

RAW = "raw"  # the type of words in which no option is read
HIDDEN = "-"  # in the place of what lists say of a subcommand: they leave it out
KINDS = {
    metavar: kind
    for kind, metavars in {
        "word": "OWNER OF-OWNER ORDER BATCH LOT OF-LOT SUBLOT AMOUNT KEY OF-KEY NOTE MATERIAL MEASURE RECIPE TEST UNIT"
        " PARTY",
        "day": "DAY",
        "filled": "TEXT",
        "gln": "GLN",
        "gtin": "GTIN",
        "month": "MONTH",
        "path": "FOLDER FILE NEW CSV FILE.pdf FILE.html",
        "percent": "PERCENT",
        "sheet": "SHEET",
    }.items()
    for metavar in metavars.split()
}
# The packages that have subcommands of their own (`packages.py`), by these, with what lists say of each.
PACKAGED = {
    "desk": ("hilpoven_desk", "serves the plant's screens, for people who don't type commands"),
    "notify": ("hilpoven_persons", "mails an owner's people what waits for them"),
    "person": ("hilpoven_persons", "names and passwords of an owner's people at the site"),
    "publish": ("hilpoven_group", "sends the office's rows to the database of a group of plants"),
    "group": ("hilpoven_group", "one recall across the offices of a group"),
}
SHARED_LINES = """
.sheet
  --digits COLUMN,.. *  Accepts names of only digits: 100000 may have been 1E5, 7 may have been 007.
  --dates COLUMN,.. *  Accepts names that look like a date, such as 2026-01-02; a date in the column day becomes
      YYMMDD.
  --decimals COLUMN,.. *  Accepts whole numbers with decimals, such as 300.00.
  --capitals  Accepts lower-case names as capitals.
  --trim  Accepts values with blanks around them, without these.
  --hidden  Imports hidden rows and columns, such as those that a filter hides.
  --ignore COLUMN,.. =ignored *  Ignores these columns.
  --column COLUMN=HEADER =headers *  The header of a column that has another one: --column amount='Amount (kg)'.
  --rows N-M,..  Only these rows of the sheet: 5-8, or 5-8,11,20-.
  --header-row N :1..  The row with the column names; the first row that isn't empty by default.
  --sheet NAME =name  Which sheet of the workbook, if several hold data or the sheet is hidden.
.paper
  --tar  Writes the documents to standard output, as a tar of a folder.
  --no-pdf  Makes no PDF, which saves a second a page.
.form
  --csv =form ~csv  As CSV, for a spreadsheet.
  --json =form ~json  As JSON, for a program.
.why
  --reason TEXT  Why; the journal keeps it, and papers show it.
.in
  --in FILE =file :plain ~  Choose the lot in this file, if several lots have the name; the newest by default.
.csv
  --csv =is_csv  As CSV, for a spreadsheet.
.case
  --case NUMBER =number :name  Which case; the only one that is open by default.
"""
TABLE = """
[Record]

receive
  --of LOT =of_lot  The lot that it contains some of.
  --why :model.kinds.Why  Why it does; with --of.
  --of-owner OWNER  Whose that lot is: OWNER, or HOUSE.
  --reason TEXT :text  What else there is to say; with --of.
  --from PARTY =party :name  The supplier; of a return the customer.
  --supplier-lot TEXT  The supplier's name of the lot.
  --document TEXT  The document that goes with it, such as a delivery note.
  > receive ACME K9 BRINE B-1R BAY1 400 261127 --of B-1 --why return

ship
  --to PARTY =party :name  The customer that gets it.
  --document TEXT  The document that goes with it, such as a delivery note.
  > ship ACME K7 B-1 TOTE2 480 261127 --to NORD --document 'LS 4711'

scrap
  +why
  > scrap HOUSE K3 W-102 TANK 50 261127 --reason 'tank was rinsed'

open
  --yes =takes_unclean  Opens it on a unit that isn't clean, although the settings ask about that.
  > open ACME O-1 KETTLE

void
  +why
  > void ACME K2 --reason 'typed twice'

reject
  +why
  > reject W-101 --reason 'wrong supplier'

cancel
  +why
  > cancel C-1 --reason 'unit is down'

do
  +why
  > do ACME O-1 1 abort --reason 'stirrer broke'

test-add
  --decimals N :1..9  How many decimals its values have: toll has 702 of 7.02 with two.
  --unit TEXT  The unit of its values.
  --method TEXT  The method by which it is measured.
  With --decimals, LOW and HIGH may have decimals, and so may results: toll has 650 of 6.50.
  > test-add ACME BRINE PH 6.50 8.50 --decimals 2 --unit pH --method 'ISO 10523'

result
  A test with decimals (`describe test`) takes 7.02, and toll gets 702. Of a value below or above what can be measured,
  write <5 or >5: toll gets 5, and the sign is noted.
  > result ACME B-1 PH '<5' 261127

for OWNER order|cancel|release|reject=name:order|cancel|release|reject VALUE..=values : recording.for_command
  --by TEXT =said_by !  Who asked for it, and how.
  Does what an owner asked for by mail or telephone: places or cancels an order, releases or rejects a lot.

  The values and the roles are those of `order`, `cancel`, `release` and `reject`. It asks the office's server over
  HTTP with the owner's key, which it reads from the file and shows to nobody; without a server it begins one for this
  alone. toll can't tell it from the owner, so the journal records it with TEXT.
  > for ACME release B-1 --by 'Jane Doe, mail of 27 November'

link OWNER [[LOT]_OF-LOT]..=typed : noting
  --batch ORDER N :word,word  All lots of this batch, in place of LOT.
  --of-batch ORDER N :word,word  Some of all that this batch took and made, in place of OF-LOT.
  --of-owner OWNER  Whose OF-LOT or --of-batch is: OWNER, as by default, or HOUSE; with one of the last four reasons
      anybody.
  --why :model.kinds.LINKING !  Why the one contains some of the other.
  --tell =tells  Tells OWNER that its lot contains material of another owner, and nothing of whose and which.
  --amount N :1..1000000000  How much of OF-LOT, if it is known.
  --reason TEXT :text ~  What else there is to say.
  Notes that LOT contains some of OF-LOT, where no actual says so: after rework, a return, an addition that the recipe
  doesn't have, or a correction. Recalls and traces go by it.

  LOT is OWNER's, and OF-LOT is OWNER's or HOUSE's. --batch ORDER N stands for all that the batch made and will make.
  `note withdraw` takes it back.

  residue, recovered, transfer and misrecorded join lots or batches of any two owners. The plant alone sees such links.
  > link ACME B-2 B-1 --why rework
  > link BOLT P-9 --of-batch O-1 1 --of-owner ACME --why residue

use OWNER ORDER BATCH OF-OWNER OF-LOT SUBLOT AMOUNT DAY : noting
  --key KEY  The key of the scrap, instead of one that is made of the values.
  --reason TEXT :text ~  What else there is to say.
  --yes =is_meant  Takes a day that looks wrong: no date, in the future, or before the lot's first. Takes a lot that
      isn't released, and a closed batch, too.
  Records what a batch used besides its recipe: scraps it from SUBLOT, and notes that the batch's lots contain some of
  OF-LOT.

  OF-LOT is OWNER's or HOUSE's. If an actual can record it, use `actual` instead. The same words again are `repeated`;
  a second use of the same amount on the same day takes a --key of its own. It says so if the lot isn't released, is
  rejected or failed a test, or if the batch is closed, and does nothing then without --yes. Of a lot that is held no
  batch uses anything.
  > use ACME O-1 1 HOUSE AF-1 CAN1 1 261127

note
  Shows and withdraws what the plant noted.
  > note list ACME

note withdraw NOTE=name : noting
  --reason TEXT :text !  Why it doesn't hold.
  Withdraws a note, and others that say the same. All of them stay in the journal; `note list` has the names.
  > note withdraw 0123456789abcdef --reason 'it was B-3'

note not-linked OWNER KEY_..=keys : noting
  --until DAY  All receipts until this day that `status` lists of OWNER.
  Notes that receipts contain no lot that was here before, so that `status` no longer lists them.

  `-` in the place of the keys reads them from standard input, one in a line. Opening stock takes --until, the day on
  which it came.
  > note not-linked ACME K2 K3

note no-residue OWNER ORDER BATCH : noting
  --reason TEXT !  Why it contains none.
  Notes that a batch contains nothing of what its unit held before, so that a recall no longer asks about it.

  If it does contain some, `link` says so, with --why residue.
  > note no-residue BOLT O-7 1 --reason 'rinse water was clear'

clean UNIT : noting
  --how TEXT !  How it was cleaned.
  --checked TEXT :text ~  How that was checked.
  Notes that a unit was cleaned, behind the last batch on it, which is closed.

  `open` asks for it, or refuses, where the settings say that the unit has to be clean. `show unit` has the order of
  batches and cleanings. A recall lists the batches that held a unit next, until it was cleaned, as `may contain some`.
  > clean KETTLE --how 'hot caustic, rinsed' --checked 'pH of the rinse water 7'

note corrects OWNER KEY OF-KEY : noting
  --of-owner OWNER  Whose OF-KEY is: OWNER's, as by default, or another's.
  Notes that a receipt or a scrap is a correction, and of which movement: of the amount that OF-KEY recorded, which
  was too small or too great. Settlements go by it.

  Of a correction of which nothing is noted it follows from what became of its lot, if it can mean only one thing.
  > note corrects ACME K20 K12

correct OWNER KEY : correcting
  --amount N :0..1000000000  How much it was; 0 if nothing was.
  --lot LOT  Of which lot it was, of the same material.
  --to PARTY =party :name  Which customer got the shipment.
  --sublot SUBLOT  Where it lies, if not in the movement's own sublot.
  --reason TEXT  Why, which has to be given.
  --day DAY  The day of the movements that set the stock right; today, as YYMMDD, by default.
  --sign NOTE =name  Signs what another person asked for, by its note.
  Corrects what was typed wrongly: the amount or the lot of a movement, or who got a shipment, also of a closed batch.

  An actual of an open batch is voided and recorded again. All else is set right by scraps and receipts, where a person
  counts it: what was there all along goes into the lot, or if that takes nothing any more, into a new one, LOT-C, that
  is linked to it. toll says over a copy first whether all of it can be done.

  Statements, balances, settlements, labels and who has what go by what was meant, and say so. No recall loses a line:
  what was recorded by mistake stays, marked. With `persons = 2` below [corrections] in the settings it waits for
  another person's signature, who has the role quality, too.
  > correct ACME K7 --amount 48 --reason 'typed 480'

note movement OWNER KEY : noting
  --to PARTY =recipient  The customer that got a shipment.
  --from PARTY =sender  The supplier of a receipt; of a return the customer.
  --supplier-lot TEXT  The supplier's name of the lot of a receipt.
  --document TEXT  The document that went with it.
  Notes what is known later of a receipt or a shipment: who sent or got it, and the document that went with it. What
  isn't given stays as it was noted.
  > note movement ACME K7 --to NORD

note list [OWNER] : noting.list_command
  +form
  Lists what the plant noted, of one owner or of all, in the order in which it was noted.
  > note list ACME

party
  = notes customers, suppliers and carriers of an owner
  Notes who gets an owner's shipments, who sends its receipts, and who carries them. toll has none of it.
  > party list ACME

party add OWNER PARTY:name : noting.party_add
  --name TEXT  Its full name, which a new one has to have.
  --address TEXT  Where it is, in one line.
  --contact TEXT  Who is told of a recall.
  --phone TEXT  At which number, at any hour.
  --gln GLN  Its Global Location Number, for exports.
  --role =roles :model.kinds.Role *  What it is to the owner, which a new one has to have; may be given several
      times: all of its roles.
  --empty =emptied :address|contact|phone *  What is known of it no longer; may be given several times.
  Notes a party of an owner, or what is new of it. What isn't given stays as it was noted; --empty takes it out. HOUSE
  is the plant.

  A customer gets shipments, a supplier sends receipts, a carrier does neither.
  > party add ACME NORD --name 'Nord Foods Ltd' --phone '+44 20 7946 0000' --role customer

party list [OWNER] : noting.party_list
  +form
  Lists the parties of all owners, or of one.
  > party list ACME

describe
  = notes full names, units, decimals, methods, expiry days and allowances
  Notes what certificates say and toll doesn't have: full names, addresses, units, decimals, methods, and the days on
  which a lot was made and expires; and what a contract allows to be lost. Without options it shows what is noted.
  > describe test ACME BRINE PH

describe owner OWNER : noting
  --name TEXT  Its full name.
  --address TEXT  Where it is, in one line.
  --gln GLN  Its Global Location Number, for exports.
  Notes the full name, the address and the GLN of an owner. HOUSE is the plant.
  > describe owner ACME --name 'Acme Foods Ltd' --address '1 Dock Road, Hull'

describe material OWNER MATERIAL : noting
  --name TEXT  Its full name.
  --gtin GTIN  Its Global Trade Item Number, for exports.
  --unit-code CODE :unit-code  The code of its measure in UN/ECE Recommendation 20, such as KGM, for exports.
  --allergen NAME =allergens :name *  An allergen that it has; may be given several times: all of them.
  Notes the full name of a material, its GTIN, the code of its measure, and its allergens, by which `open` asks about a
  unit that isn't clean.
  > describe material ACME BRINE --name 'Brine, 10 %'

describe unit UNIT : noting
  --name TEXT  Its full name.
  Notes the full name of a unit.
  > describe unit KETTLE --name 'Kettle 2, hall 1'

describe recipe OWNER RECIPE : noting
  --allowance PERCENT  How much may be lost: 0.1 to 100, such as 1.5.
  --product MATERIAL :name  Its main product; by default that of which it makes most.
  Notes how much of a recipe's materials may be lost by the contract, in percent of what is required for what was
  made; and which of its products is the main one, by which that is reckoned. `papers settlement` tells what is lost.
  > describe recipe ACME BRINE-10 --allowance 1.5

describe test OWNER MATERIAL TEST : noting
  --name TEXT  Its full name.
  --unit TEXT  The unit of its values.
  --method TEXT  The method by which it is measured.
  --results-too  The results that are there have these --decimals too: 702 is 7.02.
  --decimals N :1..9  How many decimals its values have: toll has 702 of 7.02 with two.
  Notes the full name of a test of a material, its unit, its method, and how many decimals its values have.

  With decimals, `result` takes 7.02, and limits and results are shown so. toll has whole numbers: it gets 702. Once
  decimals are noted they stay, as values would be read differently. A test that has results gets them only if these
  were recorded so, which --results-too says.
  > describe test ACME BRINE PH --unit pH --decimals 2 --method 'ISO 10523'

describe lot OWNER LOT : noting
  --made DAY :date  The day on which it was made, YYMMDD.
  --expires DAY :date  The last day on which it may be used.
  --retest DAY :date  The last day on which it may be used without another test.
  Notes the days on which a lot was made, expires, and is to be tested again.

  `ship` and `actual` warn of a lot that is past its day; by the settings they refuse it.
  > describe lot ACME B-1 --made 261127 --expires 271127

material
  Adds a material with all its tests.
  > material new ACME BRINE kg --test DENSITY 1100 1250

material new OWNER MATERIAL MEASURE : recording
  --test NAME LOW HIGH =tests :word,word,word *  A test with its limits.
  --decimals NAME N :word,1..9 *  How many decimals the values and the limits of a test have.
  Adds a material, its tests, and the test by which the plant signs and holds its lots, if the settings name one.

  Each is a command of toll. What is there already with the same values is passed over, so the same words again finish
  what was interrupted. No test is added to a material that has a lot.
  > material new ACME BRINE kg --test DENSITY 1100 1250 --test PH 6.50 8.50 --decimals PH 2

sign OWNER LOT : recording
  --reason TEXT  What else there is to say.
  --day DAY  The day of it; today, as YYMMDD, by default.
  Signs a lot for the plant, so that it may be released and go. It needs each of the lot's own tests within its
  limits, and a person who recorded none of the lot's results and movements.

  It is the result 1 of the test that the settings name below [quality]. A lot whose material hasn't this test is
  signed by a note alone.
  > sign ACME B-1

hold OWNER LOT : recording
  --reason TEXT !  Why it stays.
  --day DAY  The day of it; today, as YYMMDD, by default.
  Holds a lot, released or not, so that none of it is shipped or consumed until it is signed and released again.

  It is the result 0 of the test that the settings name below [quality], so toll itself refuses what would take it. A
  lot whose material hasn't this test is held by a note alone: then only hilpoven refuses to ship and to consume it.
  > hold ACME B-1 --reason 'metal in drum 7'

import SHEET=path : sheets.import_command
  --what :record.workbook.tables.IMPORTED ~actuals  What the sheet holds.
  +sheet
  --yes =are_meant  Takes a day that looks wrong: no date, in the future, or before the lot's first.
  --check  Checks the sheet and records nothing.
  Records a sheet of actuals, receipts, shipments or results. SHEET is text with commas, semicolons or tabs, an .xlsx
  or an .ods; `-` is standard input.

  The first row holds the column names, in any order. The command changes no value. It refuses a row with a value that
  is invalid or that the spreadsheet may have changed, reports its row and column, and records the other rows. What is
  already recorded counts once, so correct the sheet and import it again. toll takes a large sheet in parts.

  A workbook has owners, units, materials, tests, recipes, requirements, parties and opening stock, a sheet for each
  (`export workbook`). It is checked as a whole: nothing is given if one cell is wrong, and each fault names its cell.
  > import monday.xlsx
  > import --what workbook day-one.xlsx

count
  = makes the sheet of a stock count, and records its differences
  Makes the sheet of a stock count, and records what was counted otherwise than it is on hand.
  > count sheet ACME --xlsx > count.xlsx

count sheet [OWNER] : sheets
  --material MATERIAL  Only this material.
  --day DAY  The day of the count; today, as YYMMDD, by default.
  --xlsx  Writes a workbook, all of whose cells are texts, instead of CSV.
  Writes the sheet of a stock count to standard output: a row for each sublot that holds something, of OWNER or of
  all.

  Write what you counted into the column counted, and into reason why it isn't what is on hand. Leave the other
  columns as they are. A row with a blank count isn't counted.
  > count sheet ACME > count.csv

count import SHEET=counted_sheet : sheets.count_import
  +sheet
  --yes =are_meant  Takes a day that looks wrong: no date, in the future, or before the lot's first.
  --check  Only shows the differences, and records nothing.
  Records the differences of a counted sheet, each with its reason. `-` is standard input.

  What is missing is scrapped. What was found is received into a new lot, LOT-C, which is linked to LOT. A row is
  refused if its sublot has moved since the sheet was made. A difference is recorded once, however often the sheet is
  imported.
  > count import count.xlsx --check

export
  = writes a workbook of all that an office begins with
  Writes what the office has into a workbook.
  > export workbook day-one.xlsx

export workbook [FILE]=target : workbooks.export_workbook
  --ods =is_ods  As .ods, where FILE doesn't say the form; as .xlsx by default.
  --force  Replaces FILE, if it is there, and keeps its permissions.
  Writes the workbook that `import --what workbook` takes: owners without their keys, units, materials, tests, recipes,
  requirements, parties, and what is on hand as opening stock. Without FILE it writes to standard output.

  Of an empty office it is the template: the names of the columns, with a line of help below them.
  > export workbook day-one.xlsx

to-csv SHEET=source [CSV]=target : sheets
  --what :record.sheets.values.KINDS ~actuals  What the sheet holds.
  +sheet
  --force  Replaces CSV, if it is there.
  Converts a sheet to the CSV file that `toll import` reads. SHEET may be `-`, which is standard input. Without CSV it
  writes to standard output.

  It changes no value. It reports all refused values with the sheet's rows and columns, and then writes nothing.
  `hilpoven import` records a sheet directly.
  > to-csv monday.xlsx monday.csv

[Ask]

list :: listing.makers
  Lists owners, units, lots and everything else.
  > list lots --owner ACME --open

show
  Shows everything about one lot, batch, order, movement, unit, owner, recipe or material.
  > show lot ACME B-1

show lot OWNER LOT : showing
  --json =as_json  As JSON, for a program.
  Shows a lot: its batch, its tests with limits and results, what is missing for its release, its sublots, its ledger
  and who has what was shipped.
  > show lot ACME B-1

show batch OWNER ORDER BATCH : showing
  --json =as_json  As JSON, for a program.
  Shows a batch: its unit and state, what its recipe requires against what was recorded, and each actual.
  > show batch ACME O-1 1

show order OWNER ORDER : showing
  --json =as_json  As JSON, for a program.
  Shows an order: its recipe with what that requires, and its batches.
  > show order ACME O-1

show key OWNER KEY : showing
  --json =as_json  As JSON, for a program.
  Shows what was recorded with a key: the movement, with what the plant noted of it.
  > show key ACME K7

show unit UNIT : showing
  --json =as_json  As JSON, for a program.
  Shows a unit: the batch that it runs, and those that it ran.
  > show unit KETTLE

show owner OWNER : showing
  --json =as_json  As JSON, for a program.
  Shows an owner: how much it has, its materials, its recipes, and what is open; never its key.
  > show owner ACME

show recipe OWNER RECIPE : showing
  --json =as_json  As JSON, for a program.
  Shows a recipe: what each segment consumes and produces, and the orders that name it.
  > show recipe ACME BRINE-10

show material OWNER MATERIAL : showing
  --json =as_json  As JSON, for a program.
  Shows a material: its tests with limits, the recipes that use it, and its lots that are on hand.
  > show material ACME BRINE

find TEXT : finding
  +form
  Finds a text in names of lots, orders and keys, and in what the plant noted: suppliers' lots, documents, parties,
  reasons, cleanings; over all files of the office.

  Whole words are found, whatever stands beside them, in capitals or small letters: TR-77 in `TR-77,` and in `(tr-77)`.
  > find TR-77

[Look after the office]

case
  = recalls over all files: opens a case, holds, writes letters, notes answers
  A recall from what begins it to its last answer, over all files of the office.
  > case open --supplier-lot TR-77 --reason 'metal, says the supplier'

case open [OWNER]_[LOT]_..=names : cases.open_command
  --lot OWNER LOT =lots :word,word *  Another lot with which it begins.
  --supplier-lot TEXT =supplier_lots :filled *  Our lots, of any owner, that came with this as the supplier's lot.
  --document TEXT =documents :filled *  The lots that came or went with this document.
  --party OWNER PARTY =parties :word,word *  The lots that this party sent or got.
  --unit UNIT  What the batches on this unit made; with --since and --until.
  --since TIME  From this day or time on, such as 2026-11-27T14:30, in the time zone of the settings.
  --until TIME  Until this day or time.
  --drill =is_drill  It is a drill: case hold stops nothing, and letters say so.
  --reason TEXT :filled !  Why.
  Opens a recall case, which gets a number, and lists with what it begins. Its clock is the journal's.

  A batch counts as on its unit from the first line of the journal about it to its closing.
  > case open ACME S-1 --reason 'metal in bag 3'

case hold : cases
  +case
  Holds all of a case that is on hand, and its batches that aren't closed, in one step; says what it could not.

  Give it again when something came meanwhile. `sign` ends the hold of a lot.
  > case hold

case reply OWNER PARTY [LOT] : cases
  --back N :0..1000000000  How much it sent or brought back, if that isn't received with `--why return`.
  --destroyed N :0..1000000000  How much it destroyed.
  --gone N :0..1000000000  How much can't be found.
  --reason TEXT  Who said so, and what else.
  +case
  Notes what a customer answered. Its last answer about a lot counts. LOT may be left out if it got one lot alone.
  > case reply ACME NORD B-1 --back 400 --destroyed 80

case status : cases
  +case
  +form
  Shows how far a case is: who answered, what was recovered of what customers had, in percent, and the clock.
  > case status

case paper [FOLDER] : cases
  +case
  +paper
  Makes the papers of a case: the plant's, a letter for each customer with its lots, amounts, and documents, less what
  came back, and the customers' contacts as CSV.
  > case paper case

case close : cases
  --reason TEXT  Why it ends, if not all is held and accounted for.
  +case
  Ends a case, and stops its clock.
  > case close

case list : cases.list_command
  +form
  Lists all cases.
  > case list

drill
  Practises a recall against the clock, and makes the paper of it.
  > drill start ACME B-1

drill start [OWNER]_LOT=names! : papers
  Starts the clock: find all that became of LOT, as if it were bad. OWNER may be left out where one owner alone has a
  lot of this name.

  One drill is under way at a time; `status` shows it. Nothing of the office is changed by it.
  > drill start ACME B-1

drill end [FOLDER] : papers
  --cancel  It was none: no paper is made.
  --reason TEXT :text ~  Why it was none; with --cancel.
  +paper
  Stops the clock, and makes the drill's paper, as `papers` makes others.

  It says how long the drill took, which lots were found, the mass balance of each in percent, who has what was
  shipped and who did what meanwhile. It is for the plant alone.
  > drill end drill

drill paper [FOLDER] : papers.paper_command
  --of NOTE =name ~  The note with which it began.
  +paper
  Makes the paper of a drill that ended once more: that of the last one, or of one that `note list` names. Its amounts
  are those of now.
  > drill paper drill

owner
  Adds an owner, or changes its key.
  > owner add ACME --random

owner add NAME:plain : owners
  --random =is_random  Makes a key of 32 letters, prints it once, and reads nothing.
  Adds an owner. It reads the key from standard input, one line, or makes one of 32 letters if nothing is there.

  toll takes a key on its command line, where others may see it. So toll gets a throwaway key, which this command then
  replaces by the owner's key.
  > owner add ACME < keyfile

owner key NAME:plain : owners.key_command
  --random =is_random  Makes a key of 32 letters, prints it once, and reads nothing.
  Changes an owner's key, if the old one leaked. It reads the key from standard input, one line, or makes one of 32
  letters if nothing is there.

  A running server uses the new key from the next request on. Backups keep the old key.
  > owner key ACME --random

status : upkeep
  --prometheus  As metrics, for monitoring.
  --all =is_whole  Shows every owner against every limit.
  Checks the office's health, and shows how full it is.

  It checks the file's pages and that toll or its server opens it, that a server answers and that the newest backup is
  recent. It compares each owner's rows with each limit, in percent, those from 80 % on first. If days are YYMMDD
  dates, it estimates from up to 90 days behind the opening stock, and from at least 28, when an owner reaches a
  limit. Below, it lists receipts of what batches make, at which a trace may end. It exits with 0 if all is well, with
  1 if something needs attention, and with 3 if something failed.
  > status

journal : journal.journal_group
  --since TIME  From this day or time on, such as 2026-11-27T14:30, in the time zone of the settings.
  --until TIME  Before this day or time.
  --who NAME =whom  Only this login or owner.
  --word WORD  Only entries with this word, such as a lot's name.
  --site-log FILE =site_logs *  The site's log, instead of those in the settings.
  --no-site  Only the plant's commands.
  --questions  Also the owners' requests that change nothing.
  +form
  Shows who did what and when: the plant's commands and the owners' requests, ordered by time.
  > journal --since 2026-11-27 --word B-1

journal verify : journal
  --head 'LINES HASH' =heads *  What `journal head` printed earlier, kept elsewhere.
  Checks whether a line of the journal was changed, is missing, cut, dated before the one before it, or about another
  file.

  Only a head that you kept elsewhere shows that lines are missing at the end, or that the whole journal was
  rewritten.
  > journal verify --head "812 3f0a.."

journal head : journal
  Prints the number of lines and the hash of the last one. Keep it where nobody on this machine can change it.
  > journal head

papers
  = makes papers: recall, batch record, certificate, lot card, statement, settlement and others
  Makes the documents that the plant hands out, as pages, PDF and tables.
  > papers recall HOUSE W-101 recall

papers recall OWNER LOT [FOLDER] : papers
  +paper
  Makes a recall: for the plant, and for each affected owner.

  FOLDER is created completely or not at all. Its folder plant has everything, and its folder owners one folder for
  each owner, with only that owner's lots. Each starts with what to do first; then where it lies, what left, where it
  went, and each lot's balance.
  > papers recall HOUSE W-101 recall

papers batch OWNER ORDER BATCH=number [FOLDER] : papers
  +paper
  Makes a batch record for the owner: requirements, actual amounts, the lots consumed and produced with their tests,
  and who did each step when, as the journal has it.

  The record of an open batch is provisional.
  > papers batch ACME O-1 1 record

papers certificate OWNER LOT [FOLDER] : papers
  --shipment KEY =key ~  Names the amount, recipient and document of it.
  +paper
  Makes a certificate of analysis: each test with its limits, its latest result and whether it passes.

  A lot without a result gets a certificate of release. If the lot isn't released, is held, or is past its day, the
  page says so on top. With --shipment it is for the one who gets that shipment.
  > papers certificate ACME B-1 certificate

papers delivery-note OWNER KEY [FOLDER] : papers
  --with KEY =others *  Another shipment that goes with it.
  +paper
  Makes the delivery note of a shipment, with the recipient and the document that the plant noted.

  Shipments that go --with it have the same recipient and the same document.
  > papers delivery-note ACME K7 note --with K8

papers lot OWNER LOT [FOLDER] : papers.lot_command
  +paper
  Makes a lot card: tests, sublots, balance and movements, with a picture of one step back and forward.
  > papers lot ACME B-1 card

papers settlement OWNER [FOLDER] : papers
  --from DAY =first  The first day.
  --to DAY =last  The last day.
  --month MONTH  A month instead, YYMM: as it was closed, or as it is.
  +paper
  Makes an owner's settlement: what its batches consumed and produced between two days, against what their recipes
  require, with yield, loss, and what the contract allows (`describe recipe`).

  A batch is settled once, on the last day of its actuals, when it is closed. Batches that go on are apart. Rework,
  returns and corrections count once.

  With --month it is the paper of a month that was closed (`settle`), always the same; or, before, what it would have.
  > papers settlement ACME --from 261101 --to 261130 settlement

papers statement OWNER [FOLDER] : papers
  --from DAY =first !  The first day.
  --to DAY =last !  The last day.
  +paper
  Makes an owner's statement: receipts, uses, shipments and stock of each lot, between two days.
  > papers statement ACME --from 261101 --to 261130 statement

papers takeout OWNER [FOLDER] : papers
  +paper
  Makes the tables of all that the office has of an owner, for one that leaves: its materials, recipes, orders,
  batches, lots, movements and results, and what the plant noted of them. Nothing of another owner is in them.
  > papers takeout ACME --tar > acme.tar

settle OWNER MONTH [FOLDER] : papers
  +paper
  Closes the settlement of OWNER for MONTH, written as YYMM, and makes its paper with a number.

  It has each batch that is closed and on no closed settlement yet. What is closed or corrected later is on the next
  one, marked. `papers settlement OWNER --month MONTH` shows before what it will have, and makes the same paper again
  afterwards. The journal has the closing as a note, and `note withdraw` takes the last one back.
  > settle ACME 2611 settlement

labels OWNER:name LOT:name [SUBLOT_..]:name : papers
  = makes labels of a lot's sublots, with QR codes that commands take
  --size :report.papers.labels.SIZES ~99.1x38.1  Millimetres of a label: 99.1x38.1 is a sheet of A4 with 2 by 7,
      100x50 is a roll.
  --out FILE.pdf =target  Writes this file; to standard output by default.
  --force  Replaces the file, if it is there, and keeps its permissions.
  Makes a PDF with a label of each SUBLOT, or of all sublots of the lot that hold something.

  Print it at 100 %. A label has the owner, the lot, the sublot, the material, the lot's last day if it is noted, and
  the amount and the disposition when it was printed. A scanner reads OWNER/LOT/SUBLOT from its QR code, which any
  command takes in the place of LOT.
  > labels ACME B-1 --out labels.pdf
  > labels ACME B-1 TOTE2 --size 100x50 | lp

board : papers
  = makes a page for a screen in the plant
  --out FILE.html =target  Writes the page to this file, in one step; to standard output by default.
  --force  Replaces the file, if it is there, and keeps its permissions.
  Makes a page for a screen in the plant: what the units run, which orders wait for a batch, which lots wait for tests
  or for their release, and which owners are near a limit.

  A timer makes it every minute, and the page reloads itself. A page older than three minutes says so.
  > board --force --out /srv/board/board.html

companion : papers
  = writes a file for each owner, with what toll doesn't tell it
  --out FOLDER  Where they go; where the site looks for them by default.
  Writes OWNER.json for each owner: limits of tests, recipes, batches with their lots, movements with recipients,
  links, and what the plant signed or holds. The site sends it to its owner, at /companion.

  A timer does this every minute. If nothing changed, nothing is written. A file that would say the same stays as it
  is, and those of owners that are gone are removed. FOLDER is empty or has such files alone.

  What toll replies is proved, and this isn't.
  > companion

new [FILE] : upkeep
  Creates a new office, that of the settings where no FILE is given. The file must not exist. No other command creates
  one, so a mistyped name is reported.
  > new /var/lib/toll/office.db

backup [FOLDER] : upkeep
  --keep N :operators-1..  How many of the newest backups to keep; as in the settings, or 30, by default.
  --days N :operators-0..  For how many days to keep the last one; as in the settings, or 0, by default.
  Makes a backup in a folder, while the server runs, and checks it.

  Its name is that of the file, the office's mark and the time in UTC, so offices may share a folder. SQLite checks
  all of it, and toll opens a copy of it, before it gets its name: so there is a complete backup or none. The
  journal's lines so far lie beside it, and the journal notes its SHA-256. Only the office's user and root may change
  the folder. The server doesn't need to reopen its file.
  > backup /var/lib/toll/backup

restore [BACKUP]:plain : upkeep
  --foreign =is_foreign  Takes a file that the journal doesn't note as a backup. Only for root and the office's user.
  --at TIME =moment :moment  Restores a moment that `hilpoven follow` has kept, in the time zone of the settings.
  Restores a backup, or the office of a moment. BACKUP is its name in the folder of the settings, or a path.

  It stops if a server has the file, checks the whole backup with SQLite, toll and the sums of the movements, and
  whether the journal notes its SHA-256. Then it moves the file and its log into a folder next to it, copies the
  backup into place, and checks it with toll. If the journal is gone, the one beside the backup comes back. The
  register is made anew from the journal. Import the sheets since the backup again. With --at it makes the file of the
  snapshots and pieces of `hilpoven follow`, as it was at that time.
  > restore office-1a2b3c4d-20261127-010203.db

verify : upkeep
  Checks all of the office: its file, its journal, its register and its backups.

  SQLite checks the whole file, toll opens it, each sublot has to hold what its movements come to, and the rows that
  accepted commands of the journal added have to be there, and what owners did that the site's log has as done, and
  what the pieces of a standby on this machine have. The journal has to be whole, and the register has to be what the
  journal gives. Each backup in the folder of the settings has to have the SHA-256 that the journal notes.
  > verify

follow : following.follow_group
  --to FOLDER|HOST:FOLDER :operators-plain  Where pieces go, instead of FOLLOW or the settings' [follow].
  --check =is_check  Looks only whether another machine was promoted since.
  Keeps a standby that is seconds behind, until it is ended.

  It looks at the office ten times a second, while the server runs, and puts what is new into a piece each second:
  changed pages, and lines of the journal. Pieces go into a folder, or by rsync over ssh into one of another machine.
  A snapshot begins each day. If the disk is full or the network is lost, the office serves on, and pieces go on when
  that ends. Only root and the office's user follow; the unit toll-follow@NAME does it.
  > follow --to standby:/var/lib/toll/NAME/follow

follow status [FOLDER] : following.follow_status
  Shows how many seconds and commands the standby is behind. FOLDER is that of the settings by default.

  On the office's machine it tells what isn't in a piece or not sent yet, on the standby how long the follower was
  silent. It exits with 1 if that is more than `behind` of the settings, if the follower met a fault, or if another
  machine was promoted since.
  > follow status

follow verify [FOLDER] : following.follow_verify
  Checks all snapshots and pieces of a folder, that of the settings by default.

  Each has to be there once, whole, in its place, and to follow the one before it. It names each that isn't, and exits
  with 1 then.
  > follow verify

promote [FOLDER] : following
  --until PIECE :0..  Uses the pieces up to this one alone.
  --check =is_check  Makes and checks the office, and leaves nothing of it.
  Makes the office of the pieces in a folder, on the standby.

  It looks at all pieces, makes the file and its journal of the newest snapshot and the pieces behind it, and checks
  the file with SQLite, toll and the sums of the movements. What was in its place is moved aside. Then a new timeline
  begins: the old machine's office is refused when it comes back and asks the standby. If a piece is damaged or
  missing, nothing is done, and it says up to which piece --until can go. The journal keeps its lines behind that
  piece, and keys that were changed behind it aren't right again.

  Under sudo it is for the groups of the role `restore`, and without a line of that role for nobody.
  > promote

register
  = makes the register of notes anew
  Looks after the register of what the plant noted.
  > register rebuild

register rebuild : noting
  Makes the register anew from the journal, which has each note. Nothing is lost.
  > register rebuild

carry-over [NEW] : upkeep
  --day DAY  The day of the receipts that carry the stock over; today, as YYMMDD, by default.
  --plan =is_plan  Only shows what would be done, how full the new file would be, and what prevents it.
  --without OWNER :name *  An owner that leaves, and has nothing on hand; its rows stay in the earlier file.
  Continues in a new file that starts with the stock in the plant. Nothing that was recorded is lost.

  NEW, or next.db in the folder of the office's file, is the new file's name until it takes the name of the office's
  file, which becomes NAME-1.db next to it, read-only. Close all batches and stop the server first. toll's own
  commands build the new file, which is compared with the old one before it takes its place. If the command is
  interrupted, a working office remains; run the same command again.
  > carry-over /var/lib/toll/next.db

years
  = searches all files of the office, from the first to the newest
  Searches all files of the office, from the first to the newest, as if they were one.
  > years recall ACME S-1

years files : years
  +csv
  Lists the files of the office, and checks that each earlier one is unchanged.
  > years files

years recall OWNER LOT : years
  +in
  +csv
  Lists the lots that a lot went into, with the amounts on hand and shipped, over all files.
  > years recall ACME S-1

years trace OWNER LOT WAY:back|forward : years
  +in
  +csv
  Lists the lots that a lot was made of, or went into, over all files.
  > years trace ACME B-1 back

years lot OWNER LOT : years.lot_card
  +in
  --json =is_json  As JSON, for a program.
  Shows a lot with its tests, sublots and movements, over all files.
  > years lot ACME S-1

years statement OWNER : years
  --from DAY =first ~0  From this day on.
  --to DAY =last ~9999999  Up to this day.
  +csv
  Shows receipts, uses, shipments and stock of each of an owner's lots between two days, over all files.
  > years statement ACME --from 261101 --to 261130

demo : demo
  = shows a sample week on the owner's page
  --port PORT :0..65535 ~0  The page's port on 127.0.0.1; a free one by default.
  Shows a sample week of three owners on the owner's page, to this machine alone.

  It makes an office in a temporary folder, lives through the five working days up to today, prints the page's address
  and each owner's key, and answers until Ctrl-C. Then the folder is removed. It doesn't touch the office of the
  settings, and has no TLS, limits or logs: owners need the site that `hilpoven setup` makes.
  > demo --port 8080

setup NAME:plain : setup
  = sets up an office with its site for owners
  --host HOST !  The site's host name, such as toll.example.com.
  --cert FILE !  The host's certificate, with the chain, as PEM.
  --key FILE !  The certificate's private key, as PEM.
  --owner OWNER :plain ~  An owner to begin with, whose key is made and shown once.
  --desk HOST ~  The host name of the plant's screens, such as desk.example.com, which the certificate has, too.
  --persons =has_persons  Has people of owners log in by names of their own, by the package hilpoven-persons.
  Sets up an office with its site for owners: its settings in /etc/toll, with a free port, its folder, its file, its
  units, and nginx's site with TLS.

  Each step says what it did, or that it was done already, so the same command goes on after a failure. It replaces no
  file that it didn't write, or that was changed since. Root alone may run it: for members of the group sudo it calls
  sudo itself.
  > setup north --host toll.example.com --cert /etc/ssl/toll.pem --key /etc/ssl/private/toll.key

complete NUMBER:1..1000 WORD_..=words:raw : completion
  = -
  Prints what the word of this NUMBER may be, for the shell's completion.
  > complete 2 hilpoven stock A
"""


class Value(NamedTuple):
    """A value of a subcommand, or of an option of it: the parameter of the function, what stands for it in the help,
    its type, and of an option what it is for. A flag has no type."""

    name: str
    metavar: str
    kind: str
    option: str = ""
    about: str = ""
    default: str | None = None
    is_required: bool = False
    is_multiple: bool = False


HEAD = re.compile(
    r"((?:[a-z-]+(?: |$))+)(.*?) *(?:(::?) (\w+)(?:\.(\w+))?)?"
)  # its words, its values, and what does it
VALUE = re.compile(r"([^=:!]+)(?:=(\w+))?(?::([^!]+))?(!?)")  # METAVAR=name:type!


class Entry:
    """A subcommand of the table. What stands below its first line is read when it is asked for. Its module is one of a
    package of Python."""

    def __init__(self, block: str, section: str, package: str) -> None:
        head, *self.lines = block.rstrip().split("\n")
        self.package = package
        match = HEAD.fullmatch(head)
        assert match, head
        words, usage, colons, self.module, function = match.groups("")
        *self.group, self.name = words.split()
        self.usage, self.section, self.is_made = usage.split(), section, colons == "::"
        self.function = function or parameter_name(self.name)

    @cached_property
    def values(self) -> list[Value]:
        """Its values, and then its options."""
        options = re.split(r"\n(?=--)", "\n".join(line for line in self.all_lines() if line.startswith(("--", "    "))))
        return [*map(value_of, self.usage), *(option_of(" ".join(text.split("\n"))) for text in options if text)]

    def all_lines(self) -> Iterator[str]:
        """Its lines, with those that it shares with others."""
        for line in (indented[2:] for indented in self.lines):
            yield from (shared[2:] for shared in SHARED[line[1:]]) if line.startswith("+") else [line]

    @cached_property
    def paragraphs(self) -> list[str]:
        """What its help says, without its examples."""
        text = "\n".join(
            line[2:] for line in self.lines if not line.startswith(("  --", "  +", "  =", "  >", "      "))
        )
        return [" ".join(paragraph.split()) for paragraph in text.split("\n\n") if paragraph.strip()]

    @property
    def examples(self) -> list[str]:
        """The words of its examples."""
        return [line[4:] for line in self.lines if line.startswith("  > ")]

    @property
    def help(self) -> str:
        """The text of its help."""
        return "\n\n".join([*self.paragraphs, *(f"Example: hilpoven {words}" for words in self.examples)])

    @property
    def about(self) -> str:
        """What lists of subcommands say of it; of a group that does nothing itself, as of a line of `toll`."""
        if given := [line[4:] for line in self.lines if line.startswith("  = ")]:
            return given[0]
        from click.utils import make_default_short_help

        first = make_default_short_help(self.help, 160)
        return first if self.module and not self.is_made else f"{first[0].lower()}{first[1:].rstrip('.')}"


def value_of(word: str) -> Value:
    """A value by its word in the first line of an entry."""
    match = VALUE.fullmatch(word)
    assert match, word
    metavar, name, kind, mark = match.groups("")
    plain = re.sub(r"[\[\]]|_?\.\.", "", metavar)
    name, kind = name or parameter_name(plain), kind or KINDS.get(plain, "word")
    return Value(name, metavar.replace("_", " "), kind, is_required=bool(mark))


def option_of(text: str) -> Value:
    """An option by its line."""
    form, _, about = text.partition("  ")
    option, *words = form.split()
    marks = {word[0]: word[1:] for word in words if word[0] in "=:~!*"}
    metavar = " ".join(word for word in words if word[0] not in "=:~!*")
    kind = marks.get(":", KINDS.get(metavar, "plain") if metavar else "")
    name = marks.get("=", parameter_name(option[2:]))
    return Value(name, metavar, kind, option, " ".join(about.split()), marks.get("~"), "!" in marks, "*" in marks)


def parameter_name(word: str) -> str:
    """The name of the parameter in which a value comes."""
    return word.lower().replace("-", "_")


def read(text: str, package: str = __package__) -> Iterator[Entry]:
    """The entries of a table, each with the section in which it stands; a package has the modules that they name."""
    section = ""
    for block in re.split(r"\n(?=\S)", text.strip()):
        if block.startswith("["):
            section = block.strip("[]\n")
        else:
            yield Entry(block, section, package)


SHARED = {block.split("\n")[0].strip(): block.rstrip().split("\n")[1:] for block in re.split(r"\n\.", SHARED_LINES)[1:]}
ENTRIES = list(read(TABLE))
