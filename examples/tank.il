(* A tank that is filled by a pump and emptied by its users. The level comes as a word in
   millimetres. The pump runs from 200 mm up to 800 mm; above 950 mm, or while the sensor
   tells a level below 0, it stops and the horn sounds, whatever the sensor tells: the mean of the
   last two levels, which is shown, is taken as a DINT, so that their sum never overflows; and the
   starts of the pump are counted from 0 again behind 9999. *)
PROGRAM Tank
VAR
  LEVEL   AT %IW0 : INT;         (* level, mm *)
  PUMP    AT %QX0.0 : BOOL;
  HORN    AT %QX0.1 : BOOL;
  MEAN    AT %QW0 : INT;         (* mean of this level and the last, mm *)
  STARTS  AT %QW1 : INT;         (* starts so far, from 0 again behind 9999 *)
  LAST            : INT := 500;  (* level of the scan before *)
  SUM             : DINT;        (* of both levels: two INTs may come to more than an INT *)
  WAS_ON          : BOOL;
END_VAR

LD  LEVEL                        (* the alarm: above 950 or below 0 *)
GT  950
OR( LEVEL
LT  0
)
ST  HORN
JMPC STOP

LD  LEVEL                        (* on at 200, off at 800, in between as it was *)
LE  200
S   PUMP
LD  LEVEL
GE  800
R   PUMP
JMP COUNT

STOP: LD FALSE
ST  PUMP

COUNT: LD PUMP                   (* a start is an edge of the pump *)
ANDN WAS_ON
JMPCN SHOW
LD  STARTS
ADD 1
MOD 10000
ST  STARTS

SHOW: LD PUMP
ST  WAS_ON
LD  LAST
INT_TO_DINT
ST  SUM
LD  LEVEL
INT_TO_DINT
ADD SUM
DIV 2
DINT_TO_INT
ST  MEAN
LD  LEVEL
ST  LAST
END_PROGRAM
