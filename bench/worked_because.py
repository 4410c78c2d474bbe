"""Checks of because.py: worked logs with the exact evidence of their faults, and laws that hold on these and on all other logs.

It is a part of the second opinion that because.py gives, and no part of the program. The evidence here was written from the words.
"""
import random
import time
from collections.abc import Iterator

import check_rows
import further_worked
import hostile_logs
import honest_logs
import random_logs
import suite
from because import evidence, line
from further_table import TIMES
from on_request import decided, faults
from reading import Event, NAMES, RECV, RELEASE, REST, Recording, SENT
from reference import beginning, fails
from sessions import Log
from statements import type_of

SHORT = 5_000  # bytes of a worked log of the 74 statements on which the laws are checked
LENGTHS = 3  # of each fault, in which its evidence is the same

# Of each broken log of the suite the fault's position and its evidence: the event, or none, and numbers.
SUITE = """\
W01 5 event -
W02 4 event -
W03 4 event -
W04 4 event -
W05 4 event -
W06 4 event -
W07 4 event -
W08 4 event -
W09 4 event -
W10 4 event -
W11 4 event -
W12 6 event -
W13 4 event -
W14 4 event -
W15 4 event -
W16 4 event -
W17 4 event -
W18 2 event -
W19 2 event -
W20 3 event -
W21 5 event -
C01 4 event -
C02 2 event -
C03 4 event 2
C04 2 event -
C05 4 event -
C06 4 event 3
C07 7 event 6
C08 3 event -
C09 3 event -
C10 3 event 2
C11 5 event 4
C12 4 event 3
C13 4 event 3
C14 4 event 3 numbers 11 10
C15 6 event 2 numbers 6 5
C16 4 event - numbers 1
C17 4 event 3 numbers 2 1
C18 4 event -
C19 4 event -
C20 4 event 2 numbers 60
C21 5 event 2
C22 3 event 2
C23 5 event 4
S01 6 event 4
S02 8 event -
S03 12 event 11
S04 11 event 6
S05 12 event 11 numbers 6 5
S06 4 event 8
S07 5 event 3 numbers 2 1
E1A 4 event -
E1R 4 event 5
E1O 6 event 4
E2A 4 event -
E2R 4 event 5
E2O 6 event 4
E3A 5 event -
E3R 5 event 6
E3O 8 event 6
E4A 7 event -
E4R 7 event 8
E5A 4 event -
E5R 4 event 5
E6A 4 event -
E6R 4 event 5
E7R 5 event 4 numbers 1 0
L1 4 event -
L2 6 event 5
L3 7 event 4
B01 6 event - numbers 1
B02 6 event 4 numbers 2 1
B03 5 event 4 numbers 1 2
B04 5 event 4 numbers 1 2
B05 5 event 4
B06 7 event 6
B07 5 event 4
B08 6 event -
B09 6 event 4
P01 8 event 6
P02 6 event 4
R01 6 event 4
R02 6 event 4
F01 4 event 3
F02 4 event 3
F03 4 event 3
F04 4 event 3
F05 3 event 2
F06 3 event 2
V03 4 event -
V04 4 event -
V06 4 event -
C24 2 event 3
D01 4 event 5
D02 4 event 5
D03 4 event 5
D05 5 event 8
A01 5 event 2
A02 3 event 2
A03 5 event 2
K01 4 event 3 numbers 20000000 13500000
K02 4 event 3 numbers 40000000 20000000"""

# A statement, a log in the words of check_rows.py, with moments as in further_rows.txt, and the evidence of all its faults there. The log
# may have faults of others.
KEPT = "client OPEN >CONNECT-KEPT <CONNACK"  # a session that may be resumed
THREE = f"{KEPT} >PUBLISH1:1 >PUBLISH1:2 >PUBLISH1:3"
AGAIN = "CLOSE OPEN >RECONNECT <CONNACK-RESUMED"  # it is
ANEW = "CLOSE OPEN >RECONNECT <CONNACK"  # it isn't, but a new one begins
ROWS = f"""\
C03 | client OPEN >CONNECT <CONNACK >CONNECT >CONNECT | 4 event 2; 5 event 2
C03 | client OPEN >BAD-CONNECT >CONNECT <CONNACK >BAD-CONNECT CLOSE OPEN >CONNECT | 3 event 2; 5 event 2
C06 | server OPEN <CONNECT >CONNACK >CONNACK >BAD-CONNACK | 4 event 3; 5 event 3
C07 | server OPEN <CONNECT-KEPT >CONNACK-RESUMED <RECONNECT >CONNACK-RESUMED | 3 event 2; 5 event 2
C08 | server OPEN <CONNECT-NAMED >CONNACK CLOSE OPEN <RECONNECT >CONNACK-RESUMED | 7 event 3
C08 | server OPEN <CONNECT-NAMED >CONNACK CLOSE OPEN <RECONNECT >CONNACK-REFUSED CLOSE OPEN <RECONNECT >CONNACK-RESUMED | 11 event 3
C08 | server OPEN <CONNECT-KEPT >CONNACK <DISCONNECT-0 CLOSE OPEN <RECONNECT >CONNACK-RESUMED | 8 event 3
C08 | server OPEN <RECONNECT >CONNACK-REFUSED CLOSE OPEN <RECONNECT >CONNACK-RESUMED | 7 event -
C10 | server OPEN <CONNECT >CONNACK CLOSE OPEN <CONNECT-NAMED <CONNECT >CONNACK >CONNACK CLOSE OPEN <CONNECT >CONNACK | 3 event 2; 13 event 12
C11 | client OPEN >CONNECT <CONNACK >DISCONNECT >PINGREQ >DISCONNECT >C00100 | 5 event 4; 6 event 4; 7 event 4
C12 | server OPEN <CONNECT >CONNACK-REFUSED >CONNACK-REFUSED >PINGRESP | 4 event 3; 5 event 3
C13 | client OPEN >CONNECT-NAMED <CONNACK-RESUMED <CONNACK-RESUMED >PINGREQ >PINGREQ >DISCONNECT | 5 event 3; 6 event 3
C14 | server OPEN <CONNECT-SIZE-10 >CONNACK >3009000161007878787878 | 4 event 2 numbers 11 10
C15 | client OPEN >CONNECT <CONNACK-ALIASES-5 >30080001610323000678 >ALIAS-SET-1 | 4 event 3 numbers 6 5
C15 | client OPEN >CONNECT <CONNACK-ALIASES-5 CLOSE OPEN >CONNECT <CONNACK >ALIAS-SET-1 | 8 event - numbers 1 0
C15 | server OPEN >ALIAS-SET-1 <CONNECT-ALIASES-5 >ALIAS-SET-1 >30080001610323000678 | 2 event - numbers 1 0; 5 event 3 numbers 6 5
C16 | client OPEN >CONNECT <CONNACK-ALIASES-5 >ALIAS-SET-1 CLOSE OPEN >CONNECT <CONNACK-ALIASES-5 >ALIAS-1 | 9 event - numbers 1
C17 | client OPEN >CONNECT >PUBLISH2:1 <CONNACK-QOS-1 <CONNACK >PUBLISH2:2 | 6 event 4 numbers 2 1
C20 | client OPEN >CONNECT-NAMED >CONNECT-KEPT <CONNACK >DISCONNECT-60 | 5 event 2 numbers 60
C21 | server OPEN <CONNECT-TERSE >F00600041F000178 >CONNACK | 3 event 2
C21 | server OPEN <CONNECT-TERSE <CONNECT >CONNACK <SUBSCRIBE:1 >90080001041F00017802 | 6 event 2
C22 | server OPEN <CONNECT-NAMED <CONNECT-ASKING >CONNACK-INFORMING | 4 event 2
C23 | client OPEN >CONNECT <CONNACK >DISCONNECT REST >DISCONNECT REST | 5 event 4; 7 event 4
C23 | server OPEN <CONNECT >CONNACK-REFUSED REST >DISCONNECT REST | 4 event 3; 6 event 3
C23 | server OPEN <CONNECT >CONNACK >DISCONNECT >CONNACK-REFUSED REST | 6 event 4
S01 | {KEPT} >PUBLISH1:1 {AGAIN} >PUBLISH1:1 >PUBLISH1:1 | 9 event 4; 10 event 9
S01 | {KEPT} >PUBLISH1:1 CLOSE OPEN >RECONNECT >PUBLISH1:1 <CONNACK-RESUMED | 8 event 4
S01 | {KEPT} >PUBLISH1:1 CLOSE OPEN >RECONNECT <RESUMED-SIZED >SUBSCRIBE:1 >PUBLISH1:1 >PUBLISH1:1 | 10 event 9; 11 event 10
S01 | client OPEN >CONNECT <CONNACK >SUBSCRIBE:1 >PUBLISH1:1 >PUBLISH1:1 | 5 event 4; 6 event 5
S01 | client OPEN >CONNECT <CONNACK >PUBLISH1:1 >SUBSCRIBE:1 >UNSUBSCRIBE:1 | 5 event 4; 6 event 5
S01 | client OPEN >CONNECT <CONNACK >PUBLISH1:1 >SUBSCRIBE:1 <SUBACK:1 >PUBLISH1:1 | 5 event 4; 7 event 4
S01 | client OPEN >CONNECT <CONNACK >UNSUBSCRIBE:1 <SUBACK:1 >SUBSCRIBE:1 <SUBACK:1 >PUBLISH1:1 | 6 event 4; 8 event 4
S01 | client OPEN >CONNECT <CONNACK >SUBSCRIBE:1 >SUBSCRIBE:1 >SUBSCRIBE:1 | 5 event 4; 6 event 5
S01 | client OPEN >CONNECT <CONNACK >PUBLISH1:1 <PUBACK:1 >PUBLISH1:1 >PUBLISH1:1 | 7 event 6
S01 | server OPEN <CONNECT >CONNACK >PUBLISH2:1 <PUBREC:1 >PUBREL:1 >PUBLISH1:1 | 7 event 4
S02 | {KEPT} >PUBLISH1:1 <PUBACK:1 {AGAIN} >RESEND1:1 | 10 event 5
S02 | {KEPT} >PUBLISH1:1 <PUBACK:1 <PUBACK:1 {AGAIN} >RESEND1:1 | 11 event 6
S02 | {KEPT} >PUBLISH2:1 <PUBREC-80:1 {AGAIN} >RESEND2:1 | 10 event 5
S02 | {KEPT} >PUBLISH2:1 <PUBREC:1 >PUBREL:1 <PUBCOMP:1 {AGAIN} >RESEND2:1 | 12 event 7
S02 | {KEPT} <PUBACK:1 >RESEND1:1 | 5 event -
S02 | {KEPT} >PUBLISH1:1 {ANEW} >RESEND1:1 | 9 event 8
S02 | {KEPT} >PUBLISH1:1 {ANEW} >RESEND1:2 | 9 event -
S02 | {KEPT} >RESEND1:1 {ANEW} >RESEND1:1 | 4 event -; 9 event -
S02 | {KEPT} >PUBLISH1:1 {ANEW} >RESEND1:1 >RESEND1:1 {ANEW} >RESEND1:1 | 9 event 8; 10 event 8; 15 event 14
S02 | {KEPT} >PUBLISH1:1 {ANEW} >PINGREQ {AGAIN} >RESEND1:1 | 14 event 8
S02 | {KEPT} >PUBLISH1:1 CLOSE OPEN >CONNECT-KEPT >RESEND1:1 <CONNACK | 8 event -
S03 | client OPEN >CONNECT <CONNACK >PUBLISH1:1 >RESEND1:1 >RESEND1:1 | 5 event 4; 6 event 5
S03 | client OPEN >CONNECT <CONNACK >PUBLISH1:1 >PUBLISH1:2 >RESEND1:1 <PUBACK:1 >RESEND1:1 | 6 event 4
S04 | {KEPT} >PUBLISH2:1 <PUBREC:1 >PUBREL:1 {AGAIN} >PUBREL:1 >RESEND2:1 | 12 event 11
S04 | {KEPT} >PUBLISH2:1 <PUBREC:1 >PUBREL:1 >PUBREL:2 {AGAIN} >RESEND2:1 | 12 event 6
S05 | {THREE} {AGAIN} >RESEND1:2 >RESEND1:3 >RESEND1:1 | 13 event 11 numbers 5 4
S05 | {THREE} {AGAIN} >RESEND1:3 >RESEND1:2 >RESEND1:1 | 12 event 11 numbers 6 5; 13 event 11 numbers 6 4
S05 | {THREE} {AGAIN} >RESEND1:1 >RESEND1:3 >RESEND1:2 | 13 event 12 numbers 6 5
S06 | {KEPT} >PUBLISH1:1 {AGAIN} {AGAIN} REST | 4 event 12
S06 | {KEPT} >PUBLISH1:1 >PUBLISH1:2 CLOSE OPEN >RECONNECT REST <CONNACK-RESUMED REST REST {AGAIN} REST | 4 event 10; 5 event 10
S06 | {KEPT} >PUBLISH1:1 >PUBLISH1:2 {AGAIN} >RESEND1:1 REST {AGAIN} REST | 4 event 15; 5 event 15
S07 | server OPEN <CONNECT-RECEIVES-1 >CONNACK >PUBLISH1:1 >PUBLISH1:2 >PUBLISH1:3 | 5 event 2 numbers 2 1; 6 event 2 numbers 3 1
S07 | server OPEN <CONNECT-RECEIVES-1 >CONNACK >PUBLISH1:1 >PUBLISH1:2 <PUBACK:1 >PUBLISH1:3 | 5 event 2 numbers 2 1; 7 event 2 numbers 2 1
S07 | client OPEN >CONNECT <CONNACK-RECEIVES-1 <PUBACK:1 >PUBLISH1:1 >PUBLISH1:2 | 6 event 3 numbers 2 1
S07 | client OPEN >CONNECT >PUBLISH1:1 <CONNACK-RECEIVES-1 >PUBLISH1:2 >PUBLISH1:3 | 6 event 4 numbers 2 1
E1A | client OPEN >CONNECT <CONNACK <PUBLISH1:1 >PUBACK:1 >PUBACK:1 >PUBACK:1 | 6 event 5; 7 event 6
E1A | client OPEN >CONNECT <CONNACK <PUBLISH1:1 >PUBACK:1 >PUBACK:2 | 6 event -
E1A | client OPEN >CONNECT <CONNACK >PUBACK:1 >PUBACK:1 | 4 event -; 5 event -
E1A | {KEPT} <PUBLISH1:1 >PUBACK:1 {AGAIN} >PUBACK:1 >PUBACK:1 | 11 event 10
E1A | {KEPT} <PUBLISH1:1 {ANEW} >PUBACK:1 >PUBACK:1 | 9 event 8; 10 event 8
E1A | {KEPT} <PUBLISH1:1 CLOSE OPEN >CONNECT-KEPT >PUBACK:1 <CONNACK | 8 event -
E1A | {KEPT} <PUBLISH1:2 {ANEW} >PUBACK:1 | 9 event -
E1A | {KEPT} CLOSE OPEN >RECONNECT <PUBLISH1:1 <CONNACK-REFUSED {AGAIN} >PUBACK:1 | 13 event -
E1A | client OPEN >RECONNECT <PUBLISH1:1 <CONNACK-REFUSED {AGAIN} >PUBACK:1 | 9 event -
E1A | client OPEN >RECONNECT <PUBLISH1:1 <CONNACK-REFUSED {ANEW} >PUBACK:1 | 9 event -
E1A | {KEPT} <PUBLISH1:1 {ANEW} >PINGREQ {ANEW} >PUBACK:1 >PINGREQ {AGAIN} >PUBACK:1 | 14 event 13; 20 event 13
E2A | server OPEN <CONNECT >CONNACK <PUBLISH2:1 >PUBREC:1 >PUBREC:1 | 6 event 5
E2A | server OPEN <CONNECT >CONNACK <PUBLISH1:1 >PUBREC:1 | 5 event -
E2A | server OPEN <CONNECT-KEPT >CONNACK <PUBLISH2:1 CLOSE OPEN <CONNECT-KEPT >CONNACK >PUBREC:1 | 9 event 8
E3A | client OPEN >CONNECT <CONNACK >PUBLISH2:1 <PUBREC:1 >PUBREL:1 >PUBREL:1 | 7 event 6
E3A | client OPEN >CONNECT <CONNACK >PUBLISH2:1 <PUBREC-80:1 >PUBREL:1 >PUBREL:1 | 6 event 5; 7 event 5
E3A | client OPEN >CONNECT <CONNACK >PUBLISH2:1 <PUBREC:1 >PUBREL:1 <PUBCOMP:1 >PUBLISH2:1 <PUBREC-80:1 >PUBREL:1 >PUBREL:1 | 10 event 9; 11 event 10
E3A | client OPEN >CONNECT <CONNACK >PUBLISH2:1 <PUBREC-80:1 >PUBREL:2 | 6 event -
E3A | {KEPT} >PUBLISH2:1 <PUBREC:1 {ANEW} >PUBREL:1 | 10 event 9
E4A | server OPEN <CONNECT >CONNACK <PUBLISH2:1 >PUBREC:1 <PUBREL:1 >PUBCOMP:1 >PUBCOMP:1 | 8 event 7
E4A | server OPEN <CONNECT-KEPT >CONNACK <PUBREL:1 CLOSE OPEN <CONNECT-KEPT >CONNACK >PUBCOMP:1 | 9 event 8
E5A | server OPEN <CONNECT >CONNACK <SUBSCRIBE:1 >SUBACK:1 >SUBACK:1 | 6 event 5
E5A | server OPEN <CONNECT-KEPT >CONNACK <SUBSCRIBE:1 CLOSE OPEN <CONNECT-KEPT >CONNACK >SUBACK:1 | 9 event 8
E6A | server OPEN <CONNECT >CONNACK <UNSUBSCRIBE:1 >UNSUBACK:1 >SUBACK:1 >UNSUBACK:1 | 7 event 5
E6A | server OPEN <CONNECT-KEPT >CONNACK <UNSUBSCRIBE:1 CLOSE OPEN <CONNECT-KEPT >CONNACK >UNSUBACK:1 | 9 event 8
E1R | client OPEN >CONNECT <PUBLISH1:1 REST <CONNACK <PUBLISH1:2 REST <PUBLISH1:3 REST | 3 event 7; 6 event 7; 8 event 9
E2R | server OPEN <CONNECT >CONNACK <PUBLISH2:1 <PUBLISH2:2 >PUBREC:2 REST REST | 4 event 7
E3R | client OPEN >CONNECT <CONNACK >PUBLISH2:1 <PUBREC:1 <PUBREC:1 REST >PUBREL:1 REST | 5 event 7
E4R | server OPEN <CONNECT >CONNACK <PUBREL:1 >PUBCOMP:1 <PUBREL:1 REST | 6 event 7
E5R | server OPEN <CONNECT >CONNACK <SUBSCRIBE:1 <UNSUBSCRIBE:1 >UNSUBACK:1 REST | 4 event 7
E6R | server OPEN <CONNECT >CONNACK <UNSUBSCRIBE:1 <SUBSCRIBE:1 >SUBACK:1 REST | 4 event 7
E7R | server OPEN <CONNECT >CONNACK <PINGREQ <PINGREQ >PINGRESP REST <PINGREQ REST | 7 event 5 numbers 2 1; 9 event 8 numbers 3 1
E7R | server OPEN <CONNECT <PINGREQ >CONNACK REST CLOSE OPEN <CONNECT >CONNACK <PINGREQ >PINGRESP REST | 5 event 3 numbers 1 0
E1O | client OPEN >CONNECT <CONNACK <PUBLISH1:1 <PUBLISH1:2 <PUBLISH1:3 >40020003 >PUBACK:2 >PUBACK:1 | 7 event 4; 8 event 4
E1O | client OPEN >CONNECT <CONNACK <PUBLISH1:1 <PUBLISH1:2 >PUBACK:1 <PUBLISH1:1 >PUBACK:1 | 8 event 5
E2O | client OPEN >CONNECT <CONNACK <PUBLISH2:2 <PUBLISH2:1 <PUBLISH2:2 >PUBREC:1 | 7 event 4
E3O | client OPEN >CONNECT <CONNACK >PUBLISH2:1 >PUBLISH2:2 <PUBREC:2 <PUBREC:1 >PUBREL:1 | 8 event 6
L1 | client OPEN >CONNECT <CONNACK <PUBLISH2:1 >PUBREC:1 <PUBREL:1 RELEASE:1 >PUBCOMP:1 RELEASE:1 | 9 event 8
L1 | {KEPT} <PUBLISH2:1 >PUBREC:1 <PUBREL:1 RELEASE:1 >PUBCOMP:1 CLOSE RELEASE:1 | 10 event 8
L1 | client OPEN >CONNECT <CONNACK <PUBLISH2:1 >PUBREC:1 <PUBREL:1 RELEASE:1 >PUBCOMP:1 >PUBCOMP:1 RELEASE:1 | 10 event 9
L1 | server OPEN <CONNECT >CONNACK <PUBLISH2:1 >PUBREC-80:1 RELEASE:1 RELEASE:2 | 6 event 5; 7 event -
L1 | server OPEN <CONNECT >CONNACK >PUBCOMP:1 RELEASE:1 | 5 event -
L1 | {KEPT} <PUBLISH2:1 CLOSE OPEN >CONNECT-KEPT <CONNACK RELEASE:1 RELEASE:2 | 9 event 8; 10 event -
L1 | client RELEASE:1 OPEN >CONNECT <PUBLISH2:1 CLOSE RELEASE:1 | 1 event -
L2 | server OPEN <CONNECT >CONNACK <PUBLISH2:1 RELEASE:1 RELEASE:1 RELEASE:1 | 6 event 5; 7 event 6
L2 | {KEPT} <PUBLISH2:1 RELEASE:1 CLOSE RELEASE:1 OPEN >RECONNECT <CONNACK-RESUMED RELEASE:1 | 7 event 5; 11 event 7
L3 | client OPEN >CONNECT <CONNACK <PUBLISH2:1 <RESEND2:1 >PUBREC:1 <PUBREL:1 >PUBCOMP:1 | 8 event 4
L3 | {KEPT} <PUBLISH2:1 >PUBREC:1 {AGAIN} <PUBREL:1 >PUBCOMP:1 <PUBLISH2:1 >PUBCOMP:1 | 11 event 4; 13 event 12
B01 | server OPEN <CONNECT >CONNACK >PUBLISH0 <SUBSCRIBE-B-1:1 >SUBACK-1:1 >PUBLISH0 | 4 event - numbers 0; 7 event - numbers 1
B01 | server OPEN <CONNECT >CONNACK <SUBSCRIBE-B-1:1 >SUBACK-1:1 <SUBSCRIBE-B-1:1 >SUBACK-1:1 >PUBLISH0 | 8 event - numbers 1
B01 | server OPEN <CONNECT >CONNACK <SUBSCRIBE:1 >SUBACK-REFUSED:1 >PUBLISH0 | 6 event - numbers 0
B01 | server OPEN <CONNECT >CONNACK <820B0001000001620200016302 >PUBLISH0 <SUBSCRIBE-B-1:1 >PUBLISH0 | 5 event - numbers 2; 7 event - numbers 2
B02 | server OPEN <CONNECT >CONNACK <SUBSCRIBE-0:1 >SUBACK-0:1 <SUBSCRIBE-1:1 >SUBACK-1:1 >PUBLISH2:1 | 8 event 6 numbers 2 1
B02 | server OPEN <CONNECT >CONNACK <SUBSCRIBE-1:1 >SUBACK-1:1 <SUBSCRIBE-0:1 >SUBACK-0:1 >PUBLISH2:1 | 8 event 6 numbers 2 1
B02 | server OPEN <CONNECT >CONNACK <SUBSCRIBE-1:1 >SUBACK-1:1 <SUBSCRIBE-B-1:1 >SUBACK-1:1 >PUBLISH2:1 | 8 event 4 numbers 2 1
B02 | server OPEN <CONNECT >CONNACK <SUBSCRIBE-1:1 >SUBACK-1:1 <SUBSCRIBE-ALL:1 >SUBACK-REFUSED:1 >PUBLISH2:1 | 8 event 4 numbers 2 1
B02 | server OPEN <CONNECT >CONNACK <SUBSCRIBE-0:1 >PUBLISH1:1 >SUBACK-0:1 >PUBLISH2:2 | 5 event 4 numbers 1 0; 7 event 4 numbers 2 0
B03 | server OPEN <CONNECT >CONNACK <SUBSCRIBE:1 <820B0001000001610100016201 >90050001000102 | 6 event 4 numbers 1 2
B03 | server OPEN <CONNECT >CONNACK <SUBSCRIBE:1 >9003000100 | 5 event 4 numbers 1 0
B04 | server OPEN <CONNECT >CONNACK <UNSUBSCRIBE:1 <A209000100000161000162 >B0050001000000 | 6 event 4 numbers 1 2
B05 | server OPEN <CONNECT >CONNACK <SUBSCRIBE-0:1 <SUBSCRIBE:1 >SUBACK-1:1 | 6 event 4
B05 | server OPEN <CONNECT >CONNACK <SUBSCRIBE-1:1 >SUBACK-1:1 <SUBSCRIBE-0:1 <SUBSCRIBE-1:1 >SUBACK-1:1 | 8 event 6
B06 | server OPEN <CONNECT >CONNACK <SUBSCRIBE:1 >SUBACK:1 <UNSUBSCRIBE:1 <UNSUBSCRIBE-B:1 >UNSUBACK-NONE:1 | 8 event 6
B06 | server OPEN <CONNECT >CONNACK <SUBSCRIBE:1 >SUBACK:1 <UNSUBSCRIBE:2 >UNSUBACK-NONE:2 <SUBSCRIBE:1 >SUBACK:1 <UNSUBSCRIBE:1 <UNSUBSCRIBE-B:1 >UNSUBACK-NONE:1 | 7 event 6; 12 event 10
B07 | server OPEN <CONNECT >CONNACK <UNSUBSCRIBE:1 <UNSUBSCRIBE-B:1 >UNSUBACK:1 | 6 event 4
B07 | server OPEN <CONNECT >CONNACK <SUBSCRIBE:1 >SUBACK:1 <UNSUBSCRIBE-A-B:1 >UNSUBACK-0-0:1 | 7 event 6
B08 | server OPEN <CONNECT >CONNACK <SHARE:1 >SUBACK-REFUSED:1 >PUBLISH0 <SUBSCRIBE:1 >PUBLISH0-B | 6 event -; 8 event -
B09 | server OPEN <CONNECT >CONNACK <SHARE:1 >SUBACK-0:1 <SUBSCRIBE-0:1 >SUBACK-0:1 <SUBSCRIBE-B-1:1 >SUBACK-1:1 >PUBLISH1:1 | 10 event 6
B09 | server OPEN <CONNECT >CONNACK <SUBSCRIBE-0:1 >SUBACK-0:1 <SHARE:1 >SUBACK-0:1 >PUBLISH1:1 <SUBSCRIBE:1 >SUBACK-REFUSED:1 >PUBLISH1:2 | 8 event 6; 11 event 9
B09 | server OPEN <CONNECT-KEPT >CONNACK <SHARE:1 >SUBACK-0:1 CLOSE OPEN <RECONNECT >CONNACK-RESUMED >PUBLISH1:1 | 10 event 4
P01 | server OPEN <CONNECT >CONNACK <SUBSCRIBE-7:1 >SUBACK:1 <SUBSCRIBE-8-ALL:2 >SUBACK:2 <SUBSCRIBE-7-B:1 >SUBACK:1 >PUBLISH0-B-7 >PUBLISH0-7-8 >PUBLISH0-SYS-7 >PUBLISH1-9:1 | 13 event 6
P01 | server OPEN <CONNECT >CONNACK <SUBSCRIBE-7:1 >PUBLISH0-8 <SUBSCRIBE-8:2 >SUBACK-REFUSED:2 >PUBLISH0-8 | 5 event 4; 8 event 6
P01 | server OPEN <CONNECT-KEPT >CONNACK <SUBSCRIBE:1 >SUBACK:1 CLOSE OPEN <RECONNECT >CONNACK-RESUMED <UNSUBSCRIBE:1 >UNSUBACK:1 >PUBLISH0-7-8 | 12 event 4
P02 | server OPEN <CONNECT >CONNACK <SUBSCRIBE-7:1 >SUBACK:1 <SUBSCRIBE-8:1 >SUBACK:1 <SUBSCRIBE-B-1:1 >SUBACK-1:1 >PUBLISH0 | 10 event 6
P02 | server OPEN <CONNECT >CONNACK <SUBSCRIBE-7:1 >PUBLISH0 <SUBSCRIBE:2 >SUBACK-REFUSED:2 >PUBLISH0 | 5 event 4; 8 event 6
P02 | server OPEN <CONNECT >CONNACK <82120001020B07000A2473686172652F672F6102 >SUBACK:1 <SUBSCRIBE-7:1 >SUBACK:1 >PUBLISH0-SHARE | 8 event 4
R01 | server OPEN <CONNECT >CONNACK <SUBSCRIBE-RETAINED-2:1 >SUBACK:1 <SHARE-RETAINED-2:1 >SUBACK:1 >PUBLISH0-RETAINED | 8 event 6
R01 | server OPEN <CONNECT-KEPT >CONNACK <SUBSCRIBE-RETAINED-2:1 CLOSE OPEN <RECONNECT >CONNACK-RESUMED <UNSUBSCRIBE:1 >UNSUBACK:1 >PUBLISH0-RETAINED | 11 event 4
R02 | server OPEN <CONNECT >CONNACK <SHARE:1 >SUBACK:1 <SHARE-ALL:1 >SUBACK:1 >PUBLISH0-RETAINED | 8 event 6
R02 | server OPEN <CONNECT >CONNACK <SHARE:1 >SUBACK:1 <SUBSCRIBE-RETAINED-2:1 >SUBACK:1 >PUBLISH0-RETAINED | 8 event 6
F01 | client OPEN >CONNECT <CONNACK-NO-RETAIN <CONNACK >PUBLISH0-RETAINED >PUBLISH0-RETAINED | 5 event 3; 6 event 3
F01 | client OPEN >CONNECT <CONNACK-NO-RETAIN CLOSE OPEN >CONNECT >PINGREQ <CONNACK-NO-RETAIN >PUBLISH1-RETAINED:1 | 9 event 8
F02 | client OPEN >CONNECT <CONNACK-NO-WILDCARDS >SUBSCRIBE:2 >SUBSCRIBE-ALL:1 | 5 event 3
F03 | client OPEN >CONNECT <CONNACK-NO-IDENTIFIERS >SUBSCRIBE:2 >SUBSCRIBE-7:1 | 5 event 3
F04 | client OPEN >CONNECT <CONNACK-NO-SHARES >SUBSCRIBE:2 >SHARE:1 | 5 event 3
F05 | server OPEN <CONNECT-WILL-2 <CONNECT >CONNACK-QOS-1 >CONNACK-QOS-1 | 4 event 2; 5 event 2
F05 | server OPEN <CONNECT-WILL-1 >CONNACK-QOS-1 CLOSE OPEN <PINGREQ <CONNECT-WILL-2 >CONNACK-QOS-1 | 8 event 7
F06 | server OPEN <CONNECT-WILL-RETAINED >CONNACK-NO-RETAIN CLOSE OPEN <CONNECT-WILL-RETAINED >CONNACK-NO-RETAIN | 3 event 2; 7 event 6
V06 | client OPEN >CONNECT <CONNACK <PUBLISH1:1 >PUBACK-10:1 >DISCONNECT-8E | 5 event -; 6 event -
C24 | server OPEN <CONNECT-M >AUTH-M REST <AUTH-M REST REST CLOSE OPEN <CONNECT-NAMED REST | 2 event 6; 10 event 11
C24 | server OPEN <PINGREQ REST <CONNECT-NAMED <CONNECT-NAMED REST | 4 event 6
D01 | server OPEN <CONNECT REST >CONNACK <C00100 >PINGRESP REST <C00100 REST | 5 event 7
D01 | server OPEN <CONNECT >CONNACK <PUBLISH0-LONG REST <LOST REST CLOSE OPEN <BAD-CONNECT >CONNACK REST | 6 event 7; 10 event 12
D02 | server OPEN <CONNECT REST >CONNACK <CONNECT >PINGRESP REST <CONNECT REST | 5 event 7
D02 | server OPEN <CONNECT >CONNACK <CONNECT REST CLOSE OPEN <CONNECT <CONNECT >CONNACK REST | 4 event 5; 9 event 11
D03 | server OPEN <CONNECT REST >CONNACK <PINGRESP <PINGREQ >PINGRESP REST <SUBACK:1 REST | 5 event 8
D03 | server OPEN <PINGREQ REST CLOSE OPEN <CONNECT >CONNACK <PUBLISH0-7 REST | 2 event 3; 8 event 9
D05 | server OPEN <CONNECT REST >CONNACK-RECEIVES-1 <PUBLISH2:1 <PUBLISH2:2 >PUBREC:1 REST <RESEND2:1 REST | 6 event 8
D05 | server OPEN <CONNECT <PUBLISH2:1 >CONNACK-RECEIVES-1 <PUBLISH2:2 REST CLOSE OPEN <CONNECT >CONNACK-RECEIVES-1 <PUBLISH2:1 <PUBLISH2:2 REST | 5 event 6; 12 event 13
A01 | client OPEN >PINGREQ >CONNECT-M >CONNECT-M >PINGREQ <AUTH-M >PUBLISH0 | 5 event 3; 7 event 3
A01 | client OPEN >CONNECT-M <CONNACK CLOSE OPEN >CONNECT-M >PINGREQ | 7 event 6
A02 | client OPEN >CONNECT >CONNECT-M <CONNACK >AUTH >AUTH-M | 5 event 2; 6 event 2
A02 | server OPEN <PINGREQ <CONNECT >AUTH >CONNACK-M | 4 event 3; 5 event 3
A03 | client OPEN >CONNECT-M >CONNECT <AUTH-M >AUTH-N CLOSE OPEN >CONNECT-M <CONNACK >AUTH-BARE | 5 event 2; 10 event 8
A03 | server OPEN <PINGREQ <CONNECT-M >AUTH-N >CONNACK | 4 event 3; 5 event 3
K01 | client OPEN >CONNECT-10 @5 >PINGREQ @60 <CONNACK @73.500001 <PINGRESP @80 >PINGREQ <PINGRESP @100 REST >PINGREQ @113.6 CLOSE | 5 event 4 numbers 13500001 13500000; 8 event 6 numbers 20000000 13500000; 10 event 9 numbers 13600000 13500000
K01 | client OPEN >CONNECT-10 <CONNACK-KEEPS-4 >C00100 @3 >3006000161800078 @10 <PUBLISH0 @11 <PUBLISH0 CLOSE OPEN @12 >CONNECT-10 <CONNACK @100 CLOSE | 6 event 5 numbers 7000000 6000000; 12 event 11 numbers 88000000 13500000
K02 | server OPEN @50 <CONNECT-10 @80 >CONNACK @80.5 <PINGREQ @101 >PINGRESP @102 >PUBLISH0 @200 <PINGREQ | 5 event 4 numbers 20500000 20000000
K02 | server OPEN <CONNECT-LONG >CONNACK-KEEPS-2 <C00100 @9 REST <PUBLISH0 @30 CLOSE | 5 event 4 numbers 9000000 8000000; 7 event 6 numbers 21000000 8000000"""


# ---- what holds of all evidence

# Statements whose faults always have an event, and those whose faults never have one. Of the others it depends on the log.
ALWAYS = """C03 C06 C07 C10 C11 C12 C13 C14 C17 C20 C21 C22 C23 S01 S03 S04 S05 S06 E1R E2R E3R E4R E5R E6R E1O E2O E3O E7R L2 L3 B02
B03 B04 B05 B06 B07 B09 P01 P02 R01 R02 F01 F02 F03 F04 F05 F06 A01 A02 A03 C24 D01 D02 D03 D05 K01 K02""".split()
NEVER = [*(f"W{number:02}" for number in range(1, 22)), *"C01 C02 C04 C05 C09 C16 C18 C19 B01 B08 V03 V04 V06".split()]
# Those whose event, if there is one, is on the connection of the fault; those which a later REST shows, whose event may come after it.
HERE = """C03 C06 C07 C10 C11 C12 C13 C14 C15 C17 C20 C21 C22 C23 S03 S05 S07 E1R E2R E3R E4R E5R E6R E1O E2O E3O E7R B03
B04 B05 B06 B07 F01 F02 F03 F04 F05 F06 A01 A02 A03 C24 D01 D02 D03 D05 K01 K02""".split()
SHOWN_LATER = "S06 E1R E2R E3R E4R E5R E6R C24 D01 D02 D03 D05".split()
COUNTS = {"C14": 2, "C15": 2, "C16": 1, "C17": 2, "C20": 1, "S05": 2, "S07": 2, "E7R": 2, "B01": 1, "B02": 2, "B03": 2, "B04": 2}
COUNTS |= {"K01": 2, "K02": 2}

# What the event may be: a packet that was sent (>) or received (<), or a mark; after = one under the Packet Identifier of the fault. With >
# or < alone it may be anything that was sent or received.
EVENTS = """\
C03 >CONNECT | C06 >CONNACK | C07 <CONNECT | C08 >CONNACK | C10 <CONNECT | C11 >DISCONNECT | C12 >CONNACK | C13 <CONNACK
C14 <CONNECT <CONNACK | C15 <CONNECT <CONNACK | C17 <CONNACK | C20 >CONNECT | C21 <CONNECT | C22 <CONNECT | C23 >DISCONNECT >CONNACK
S01 =>PUBLISH =>SUBSCRIBE =>UNSUBSCRIBE | S02 =<PUBACK =<PUBREC =<PUBCOMP <CONNACK >CONNACK | S03 =>PUBLISH | S04 =>PUBREL
S05 >PUBLISH | S06 <CONNACK >CONNACK | S07 <CONNECT <CONNACK | E1A =>PUBACK <CONNACK >CONNACK | E2A =>PUBREC <CONNACK >CONNACK
E3A =>PUBREL =<PUBREC <CONNACK >CONNACK | E4A =>PUBCOMP <CONNACK >CONNACK | E5A =>SUBACK >CONNACK | E6A =>UNSUBACK >CONNACK
E1R REST | E2R REST | E3R REST | E4R REST | E5R REST | E6R REST | E1O <PUBLISH | E2O <PUBLISH | E3O <PUBREC | E7R <PINGREQ
L1 =>PUBREC =>PUBCOMP <CONNACK >CONNACK | L2 =RELEASE | L3 =<PUBLISH | B02 <SUBSCRIBE | B03 =<SUBSCRIBE | B04 =<UNSUBSCRIBE
B05 =<SUBSCRIBE | B06 =<UNSUBSCRIBE | B07 =<UNSUBSCRIBE | B09 <SUBSCRIBE | P01 <SUBSCRIBE | P02 <SUBSCRIBE | R01 <SUBSCRIBE | R02 <SUBSCRIBE
F01 <CONNACK | F02 <CONNACK | F03 <CONNACK | F04 <CONNACK | F05 <CONNECT | F06 <CONNECT | A01 >CONNECT | A02 >CONNECT <CONNECT | A03 >CONNECT <CONNECT
C24 REST | D01 REST | D02 REST | D03 REST | D05 REST | K01 > <CONNACK | K02 < >CONNACK"""
KINDS = {words[0]: {*words[1:]} for words in (one.split() for row in EVENTS.split("\n") for one in row.split("|"))}
WAYS = {SENT: ">", RECV: "<"}
MARKS = {REST: "REST", RELEASE: "RELEASE"}


def identifier(event: Event) -> int | None:
    return event.released if event.kind == RELEASE else getattr(event.item, "identifier", None)


def is_of_kind(log: Log, k: int, at: int, rule: str) -> bool:
    """Whether the event there may be the one for this fault."""
    event = log.event(at)
    name = WAYS[event.kind] + NAMES[type_of(event.item)] if event.kind in WAYS else MARKS.get(event.kind, "")
    is_same = identifier(event) == identifier(log.event(k))
    return bool({name, WAYS.get(event.kind)} & KINDS[rule]) or (is_same and f"={name}" in KINDS[rule])


class Laws:
    """Laws that hold on all logs, and what was seen while they were checked."""

    def __init__(self) -> None:
        self.logs = self.faults = 0
        self.words: set[tuple[str, ...]] = set()  # statements with the words of their evidence, and its kind

    def wrong(self, log: Log) -> Iterator[str]:
        self.logs += 1
        draw = random.Random(log.last)
        for k, rule in faults(log, TIMES):
            self.faults += 1
            found, shown = evidence(log, k, rule), decided(log, k, rule)
            self.words.add((rule, found.words, found.kind))
            wrong = [*self.wrong_event(log, k, rule, found.because, shown), *self.wrong_numbers(rule, found.numbers)]
            lengths = {shown, *(draw.randint(shown, log.last) for _ in range(LENGTHS))}
            wrong += [f"is {one} in the first {n} events" for n in lengths if (one := evidence(beginning(log, n), k, rule)) != found]
            yield from (f"{line(k, rule, found)}: it {one}" for one in wrong)

    def wrong_event(self, log: Log, k: int, rule: str, at: int | None, shown: int) -> Iterator[str]:
        if (at is None and rule in ALWAYS) or (at is not None and rule in NEVER):
            yield "has an event, or none"
        if at is None:
            return
        if not 1 <= at <= (shown if rule in SHOWN_LATER else k - 1):
            yield f"isn't before {k}, or after {shown}, where the fault is decided"
        if rule in HERE and log.places[at] != log.places[k]:
            yield "is on another connection"
        if rule[0] in "SELBPR" and log.sessions[at] != log.sessions[k]:
            yield "is in another session"
        if not is_of_kind(log, k, at, rule):
            yield "is an event of another kind, or under another identifier"

    def wrong_numbers(self, rule: str, numbers: tuple[int, ...]) -> Iterator[str]:
        if len(numbers) != COUNTS.get(rule, 0):
            yield "has too many numbers, or too few"
        elif len(numbers) == 2 and (numbers[0] == numbers[1] if rule in ("B03", "B04") else numbers[0] <= numbers[1]):
            yield "has numbers that break nothing"


# ---- worked logs


def log_of(bytes: bytes) -> Log:
    recording = Recording(bytes)
    return Log(recording.events, recording.role, recording.releases)


def worked() -> Iterator[tuple[str, Log, str, str]]:
    """Each with a name, a statement, and the evidence of its faults."""
    wanted = dict(one.split(" ", 1) for one in SUITE.split("\n"))
    assert list(wanted) == list(suite.CITATIONS), "the table of the suite doesn't have all statements in order"
    for row in suite.rows():
        yield f"{row.code} {row.which}", log_of(row.log), row.code, wanted[row.code] if row.which == suite.BROKEN else ""
    names = further_worked.packets()
    for row in ROWS.split("\n"):
        rule, words, rest = (part.strip() for part in row.split("|"))
        made = further_worked.timed_log if "@" in words else check_rows.log_of
        yield row, log_of(made(words, names)), rule, rest


def wrong_worked(name: str, log: Log, rule: str, text: str, seen: set[tuple[str, ...]]) -> Iterator[str]:
    at = [k for k, one in faults(log, TIMES) if one == rule]
    wanted = [f"because {k} {rule} {rest}" for k, _, rest in (one.strip().partition(" ") for one in text.split(";")) if k]
    found = [evidence(log, k, rule) for k in at]
    seen |= {(rule, one.words, one.kind) for one in found}
    said = [line(k, rule, one) for k, one in zip(at, found, strict=True)]
    if said != wanted:
        yield f"{name}: wanted {wanted}, found {said}"


def wrong_default(seen: set[tuple[str, ...]]) -> Iterator[str]:
    """No Receive Maximum is announced, and one PUBLISH more is sent than the 65,535 that may be in flight."""
    start = log_of(check_rows.log_of("client OPEN >CONNECT <CONNACK >PUBLISH1:1", check_rows.packets()))
    log = Log([*start.events[:3], *start.events[3:] * 65_536], start.role, start.releases)
    found = evidence(log, log.last, "S07")
    seen.add(("S07", found.words, found.kind))
    if not fails(log, log.last, "S07") or line(log.last, "S07", found) != "because 65539 S07 event - numbers 65536 65535":
        yield f"65,536 in flight: {line(log.last, 'S07', found)}"


def made(count: int) -> Iterator[tuple[str, bytes]]:
    """Logs with faults, and their names: random ones, and honest ones that are changed."""
    for which in range(count):
        yield f"bench/random_logs.py 2 {which}", random_logs.session(2, which)
        draw = random.Random(f"because {which}")
        yield f"bench/honest_logs.py 2 {which}, changed", hostile_logs.changed(draw, honest_logs.session(2, which))


def self_test(count: int) -> int:
    begun, laws, seen = time.monotonic(), Laws(), set()
    rows = list(worked())
    wrong = [one for row in rows for one in wrong_worked(*row, seen)]
    wrong += wrong_default(seen)
    short = [(row.name, row.log) for row in check_rows.rows() if len(row.log) < SHORT]
    named = [*((name, log) for name, log, *_ in rows), *((name, log_of(log)) for name, log in [*short, *made(count)])]
    wrong += [f"{name}: {one}" for name, log in named for one in laws.wrong(log)]
    wrong += [f"{rule}: no worked log has the words {words!r}, {kind or 'of one kind'}" for rule, words, kind in sorted(laws.words - seen)]
    for one in wrong:
        print(f"{one:.1000}")
    logs = f"{len(rows) + 1} worked logs with {len(seen)} kinds of evidence, {laws.logs} logs with {laws.faults} faults"
    print(f"because: {logs}, {len(wrong)} wrong, in {time.monotonic() - begun:.0f} s")
    return 1 if wrong else 0
