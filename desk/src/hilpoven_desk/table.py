"""The subcommand `hilpoven desk`, as `hilpoven.cli.packages` reads it."""
TABLE = """
[Look after the office]

desk : serving
  --host HOST !  The host name of the screens, such as desk.example.com.
  --socket PATH :path !  The socket at which nginx asks. Its folder says who may open it.
  = serves the plant's screens, for people who don't type commands
  Serves the plant's screens, until it is ended: pages for a tablet, a scanner and a PC.

  Persons log in with their accounts on this machine, which saslauthd checks, and have the roles of their groups. The
  journal has their logins. Only the office's user serves; the unit toll-desk@NAME does it, behind nginx with TLS.
  > desk --host desk.example.com --socket /run/toll-desk/north/socket
"""
