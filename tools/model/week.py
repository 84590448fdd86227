"""What the program `week_sheet` should print for the stream on standard input, by the rules:  python3 tools/model/week.py"""
import sys

sys.dont_write_bytecode = True
import rules  # noqa: E402

sys.stdout.write(rules.week(sys.stdin.buffer.read()))
