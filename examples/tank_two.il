(* The tank of tank.il with a second pump: it helps below 100 mm until the level is back at 400 mm,
   and its starts are counted, too. Names that stand in tank.il with the same type and without a
   location go on where a running tank is changed to this text: LAST, SUM and WAS_ON. *)
PROGRAM Tank
VAR
  LEVEL   AT %IW0 : INT;         (* level, mm *)
  PUMP    AT %QX0.0 : BOOL;
  HORN    AT %QX0.1 : BOOL;
  HELPER  AT %QX0.2 : BOOL;      (* the second pump *)
  MEAN    AT %QW0 : INT;         (* mean of this level and the last, mm *)
  STARTS  AT %QW1 : INT;         (* starts so far, from 0 again behind 9999 *)
  HELPS   AT %QW2 : INT;         (* those of the second pump *)
  HELPED          : BOOL;
  LAST            : INT := 500;  (* level of the scan before *)
  SUM             : DINT;        (* of both levels: two INTs may come to more than an INT *)
  WAS_ON          : BOOL;
END_VAR

LD  LEVEL                        (* the alarm: above 950 or below 0 *)
GT  950
OR( LEVEL
LT  0
)
ST  HORN
JMPC STOP

LD  LEVEL                        (* on at 200, off at 800, in between as it was *)
LE  200
S   PUMP
LD  LEVEL
GE  800
R   PUMP

LD  LEVEL                        (* the second pump: on at 100, off at 400 *)
LE  100
S   HELPER
LD  LEVEL
GE  400
R   HELPER
JMP COUNT

STOP: LD FALSE
ST  PUMP
ST  HELPER

COUNT: LD PUMP                   (* a start is an edge of the pump *)
ANDN WAS_ON
JMPCN HELP
LD  STARTS
ADD 1
MOD 10000
ST  STARTS

HELP: LD HELPER
ANDN HELPED
JMPCN SHOW
LD  HELPS
ADD 1
MOD 10000
ST  HELPS

SHOW: LD PUMP
ST  WAS_ON
LD  HELPER
ST  HELPED
LD  LAST
INT_TO_DINT
ST  SUM
LD  LEVEL
INT_TO_DINT
ADD SUM
DIV 2
DINT_TO_INT
ST  MEAN
LD  LEVEL
ST  LAST
END_PROGRAM
