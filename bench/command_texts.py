"""What the program prints of its command line: help, the version, and what is wrong with words. program_runs.py has
the runs that print it.
"""
HELP = """\
Judges the log of one end of an MQTT 5.0 session

Usage: mqjudge <COMMAND>

Commands:
  check    Judges a log and reports each fault
  show     Shows each event of a log
  packet   Says which packet some bytes are
  rules    Lists the statements
  explain  Explains a statement, or those with a citation
  convert  Converts a log of version 1 into one of version 2
  help     Print this message or the help of the given subcommand(s)

Options:
  -h, --help     Print help
  -V, --version  Print version

Statuses: 0 for a pass, 1 for faults, 2 for a refused log, 3 for misuse,
4 if reading or writing failed or memory ran out.
Example: mqjudge check session.log
The log's format: docs/LOG_FORMAT.md
"""
CHECK_HELP = """\
Judges a log and reports each fault

Usage: mqjudge check [OPTIONS] [FILE]

Arguments:
  [FILE]  The log; standard input if it is missing or `-`

Options:
      --json               Report as one line of JSON, also with --summary
      --summary            Report a line for each statement that has faults
      --coverage           Say how often each statement was put to the test
      --why                Say what each fault conflicts with; reads FILE twice if it has faults
      --all                Judge the further statements too
      --times              Judge those on times too: moments are microseconds
      --statements <LIST>  Report the faults of these statements, such as default,F,-W13
  -h, --help               Print help

Statuses: 0 for no fault, 1 for faults, 2 for a refused log, 3 for misuse,
4 if reading or writing failed or memory ran out.
Example: mqjudge check --json session.log
The log's format: docs/LOG_FORMAT.md
"""
SHOW_HELP = """\
Shows each event of a log

Usage: mqjudge show [OPTIONS] [FILE]

Arguments:
  [FILE]  The log; standard input if it is missing or `-`

Options:
      --long        Show the other fields and the properties of each packet
      --faults      Show the faults under their events; reads FILE more than once
      --around <N>  With --faults: only the events within N positions of a fault
      --all         With --faults: judge the further statements too
      --times       With --faults: as --all, and by those on times
  -h, --help        Print help

Statuses: 0 if the log was shown, 2 for a refused log, 3 for misuse,
4 if reading or writing failed or memory ran out.
Example: mqjudge show --faults --around 3 session.log
The log's format: docs/LOG_FORMAT.md
"""
RULES_HELP = """\
Lists the statements

Usage: mqjudge rules [OPTIONS]

Options:
      --role <role>        Only the statements that bind this end: client or server
      --all                List the further statements too
      --times              List those on times too
      --statements <LIST>  List these statements, such as default,F,-W13
  -h, --help               Print help

Statuses: 0 if they were listed, 3 for misuse,
4 if writing failed or memory ran out.
Example: mqjudge rules --role client
The log's format: docs/LOG_FORMAT.md
"""
CONVERT_HELP = """\
Converts a log of version 1 into one of version 2

Usage: mqjudge convert [OPTIONS] <IN> <OUT>

Arguments:
  <IN>   The log of version 1; standard input if it is `-`
  <OUT>  The file that is made, which isn't there yet; another one than IN

Options:
      --force  Empty and write OUT if it is there
  -h, --help   Print help

Statuses: 0 if the log was converted, 2 for a refused log, 3 for misuse,
4 if reading or writing failed or memory ran out.
Example: mqjudge convert session.log session-2.log
The log's format: docs/LOG_FORMAT.md
"""
VERSION = "mqjudge 0.1.0 (reads log versions 1 and 2, judges 74 statements)\n"
FURTHER_OPERAND = """\
error: unexpected argument 'b' found

Usage: mqjudge check [OPTIONS] [FILE]

For more information, try '--help'.
mqjudge: check takes one log; recorders/judge takes many
"""
FOR_CHECK_ALONE = """\
error: unexpected argument '--coverage' found

  tip: to pass '--coverage' as a value, use '-- --coverage'

Usage: mqjudge show [OPTIONS] [FILE]

For more information, try '--help'.
"""
TWICE = """\
error: the argument '--coverage' cannot be used multiple times

Usage: mqjudge check [OPTIONS] [FILE]

For more information, try '--help'.
"""
UNKNOWN_WORD = """\
error: unrecognized subcommand 'judge'

Usage: mqjudge <COMMAND>

For more information, try '--help'.
"""
NO_WORD = """\
error: 'mqjudge' requires a subcommand but one was not provided
  [subcommands: check, show, packet, rules, explain, convert, help]

Usage: mqjudge <COMMAND>

For more information, try '--help'.
"""
NO_OPERAND = """\
error: the following required arguments were not provided:
  <HEX>...

Usage: mqjudge packet <HEX>...

For more information, try '--help'.
"""
NO_OUT = """\
error: the following required arguments were not provided:
  <OUT>

Usage: mqjudge convert <IN> <OUT>

For more information, try '--help'.
"""
