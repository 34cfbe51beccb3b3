"""How a manual page is made of a tool's help."""
from install import manual

HELP = r"""usage: cadf-it [--at TIME] FILE
       cadf-it --all

Keeps it: all of
it. Then more.

.hidden names are told, and \ too:
  -x  as  it  is

Examples:
  cadf-it --all

Exit status: 0 done; 1
refused.

positional arguments:
  FILE         what is kept

options:
  -h, --help   show this help message and exit
  --a-long-option TEXT
               a text that
               goes on
"""
PAGE = r""".TH CADF\-IT 1 "2026-01-01" "cadf 0.1.0" "User Commands"
.SH NAME
cadf\-it \- keeps it
.SH SYNOPSIS
.nf
cadf\-it [\-\-at TIME] FILE
cadf\-it \-\-all
.fi
.SH DESCRIPTION
.PP
Keeps it: all of
it. Then more.
.PP
\&.hidden names are told, and \e too:
.PP
.nf
  \-x  as  it  is
.fi
.SH OPTIONS
.TP
.B FILE
what is kept
.TP
.B \-h, \-\-help
show this help message and exit
.TP
.B \-\-a\-long\-option TEXT
a text that goes on
.SH EXIT STATUS
.PP
0 done; 1
refused.
.SH EXAMPLES
.PP
.nf
  cadf\-it \-\-all
.fi
.SH SEE ALSO
.BR cadf (1)
"""


def test_page():
    assert manual.page("cadf-it", HELP, '.TH CADF 1 "2026-01-01" "cadf 0.1.0" "User Commands"') == PAGE


def test_up_to_python_3_9():
    """Its argparse calls options another name."""
    said = HELP.replace("\noptions:", "\noptional arguments:")
    assert manual.page("cadf-it", said, '.TH CADF 1 "2026-01-01" "cadf 0.1.0" "User Commands"') == PAGE
