(* Two pumps that empty a sump. The lead pump starts at the middle float, the lag pump at the
   high float; lead runs until the low float falls, lag until the middle one does. A selector
   says which pump leads. A pump that has failed is never driven, and the other takes its turn. *)
VAR
  LOW     AT %IX0.0 : BOOL;   (* floats: TRUE where the water stands above them *)
  MIDDLE  AT %IX0.1 : BOOL;
  HIGH    AT %IX0.2 : BOOL;
  SECOND  AT %IX0.3 : BOOL;   (* selector: TRUE where pump 2 leads *)
  FAILED1 AT %IX1.0 : BOOL;
  FAILED2 AT %IX1.1 : BOOL;
  PUMP1   AT %QX0.0 : BOOL;
  PUMP2   AT %QX0.1 : BOOL;
  ALARM   AT %QX1.0 : BOOL;
END_VAR
VAR
  LEAD, LAG : BOOL;           (* the two calls for a pump, kept from scan to scan *)
  FIRST : BOOL;               (* pump 1 leads *)
  READY1, READY2 : BOOL;
  WANTED1, WANTED2 : BOOL;    (* what each pump would do if both were sound *)
END_VAR

LD  MIDDLE
OR  LEAD
AND LOW
ST  LEAD
LD  HIGH
OR  LAG
AND MIDDLE
ST  LAG

LDN SECOND
ST  FIRST
LDN FAILED1
ST  READY1
LDN FAILED2
ST  READY2

LD  LAG
AND SECOND
ST  WANTED1
LD  LEAD
AND FIRST
OR  WANTED1
ST  WANTED1

LD  LAG
AND FIRST
ST  WANTED2
LD  LEAD
AND SECOND
OR  WANTED2
ST  WANTED2

LD  WANTED2                   (* pump 1 stands in for pump 2 *)
AND FAILED2
OR  WANTED1
AND READY1
ST  PUMP1

LD  WANTED1                   (* and pump 2 for pump 1 *)
AND FAILED1
OR  WANTED2
AND READY2
ST  PUMP2

LD  FAILED1
OR  FAILED2
OR  HIGH
ST  ALARM
