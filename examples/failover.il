(* A tank that is filled by a pump and emptied by its users. The level comes as a word in
   millimetres; the pump runs from 200 mm up to 800 mm. SCANS counts the scans, for a client
   to watch that they go on. *)
PROGRAM Failover
VAR
  LEVEL AT %IW0 : INT;     (* level, mm *)
  PUMP  AT %QX0.0 : BOOL;
  SCANS AT %QW0 : INT;     (* scans so far, from 0 again behind 9999 *)
END_VAR

LD  LEVEL                  (* on at 200, off at 800, in between as it was *)
LE  200
S   PUMP
LD  LEVEL
GE  800
R   PUMP

LD  SCANS
ADD 1
MOD 10000
ST  SCANS
END_PROGRAM
