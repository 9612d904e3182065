"""The program that the machines of tools/try/try-machines run, and what a client reads of it in one request.

Each scan counts in %QW63 up to 10000, those in %QW60; %QW61 has the input word %IW0, %QW62 the bits %QX0.0, twice
%QX0.1 and four times %IX0.2; %QW58 has which of the two texts is in force. %QW59 is a mark of all that ever was: of
what it was before and of the other outputs but the count, so that a scan left out, done twice or done otherwise changes
it.
"""
import struct
from typing import NamedTuple

TEXT = '''VAR
  HOLD AT %IX0.0 : BOOL;  RUN AT %IX0.1 : BOOL;  TOLD AT %IX0.2 : BOOL;  X AT %IW0 : INT;
  HELD AT %QX0.0 : BOOL;  DONE AT %QX0.1 : BOOL;
  TEXT AT %QW58 : INT;  MARK AT %QW59 : INT;
  HIGH AT %QW60 : INT;  Y AT %QW61 : INT;  BITS AT %QW62 : INT;  COUNT AT %QW63 : INT;
  SUM : DINT;  MORE : DINT;
  AFTER : TON;
END_VAR
LD HOLD
ST HELD
LD X
ST Y
CAL AFTER(IN := RUN, PT := T#3s, Q => DONE)
LD 0
ST BITS
LD HELD
JMPCN FIRST
LD 1
ST BITS
FIRST:
LD DONE
JMPCN SECOND
LD BITS
ADD 2
ST BITS
SECOND:
LD TOLD
JMPCN THIRD
LD BITS
ADD 4
ST BITS
THIRD:
LD {text}
ST TEXT
LD Y
INT_TO_DINT
MUL DINT#7
ST MORE
LD BITS
INT_TO_DINT
ADD MORE
ST MORE
LD TEXT
INT_TO_DINT
ADD MORE
ST MORE
LD SUM
MUL DINT#31
ADD MORE
MOD DINT#32749
ST SUM
DINT_TO_INT
ST MARK
LD COUNT
ADD 1
ST COUNT
EQ 10000
JMPCN OUT
LD 0
ST COUNT
LD HIGH
ADD 1
ST HIGH
OUT:
LD COUNT
'''
TEXTS = (1, 2)          # two texts of it, which differ in %QW58 alone
TIMER = 3.0             # seconds, as PT
HELD, DONE, TOLD = 1, 2, 4
READ = struct.pack('>BHH', 4, 58, 6)    # all of one release
WORDS_A_SCAN = 10000    # scans that %QW63 counts
GREATEST = 32767        # a word's


def source(text=TEXTS[0]):
    return TEXT.replace('{text}', str(text))


class Outputs(NamedTuple):
    """What one release shows."""
    count: int          # scans so far
    word: int           # %IW0, as the scan had it
    bits: int
    mark: int
    text: int

    @staticmethod
    def of(reply):
        text, mark, high, word, bits, count = struct.unpack('>6h', reply[2:])
        return Outputs(high * WORDS_A_SCAN + count, word, bits, mark, text)


def mark_after(mark, outputs):
    """The mark of a scan with these outputs, behind one with that mark: the table's reading, in Python."""
    return (31 * mark + 7 * outputs.word + outputs.bits + outputs.text) % 32749
