PROGRAM bottles
(* Bottles on a belt go past a light barrier into crates of three. The belt stands while a crate is full,
   and after a jam: a bottle that stays in the barrier for 2 s. *)
VAR
  BARRIER AT %IX0.0 : BOOL;  (* TRUE while a bottle is in the barrier *)
  CHANGED AT %IX0.1 : BOOL;  (* the crate was changed *)
  CLEARED AT %IX0.2 : BOOL;  (* somebody has cleared the jam *)
  BELT    AT %QX0.0 : BOOL;
  FULL    AT %QX0.1 : BOOL;
  ALARM   AT %QX0.2 : BOOL;
  COUNT   AT %QW0   : INT;

  BOTTLES : CTU;
  JAM     : TON;
  STUCK   : RS;
END_VAR

CAL  BOTTLES(CU := BARRIER, R := CHANGED, PV := 3, Q => FULL, CV => COUNT)
CAL  JAM(IN := BARRIER, PT := T#2s)
CAL  STUCK(S := JAM.Q, R1 := CLEARED, Q1 => ALARM)
LDN  FULL
ANDN ALARM
ST   BELT
END_PROGRAM
