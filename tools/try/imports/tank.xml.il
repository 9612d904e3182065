(* From tank.xml, by tools/user/import. *)

FUNCTION_BLOCK Band
  VAR_INPUT
    Value : REAL;
    Low : REAL := 1.0;
    High : REAL := 4.5;
  END_VAR
  VAR_OUTPUT
    Fill : BOOL;
  END_VAR

  LD Value   (* below the band: fill *)
  LT Low
  S Fill
  LD Value
  GT High
  R Fill
END_FUNCTION_BLOCK

FUNCTION Metres : REAL
  VAR_INPUT
    Counts : INT;
  END_VAR
  VAR CONSTANT
    Whole : REAL := 27648.0;
  END_VAR

  LD Counts
  INT_TO_REAL
  DIV Whole
  MUL 5.0
  MAX 0.0
  ST Metres
END_FUNCTION

PROGRAM PLC_PRG
  VAR
    Counts AT %IW0 : INT;   (* 0 to 27648, of 5 metres *)
    Again AT %IX4.0 : BOOL;
    Pump AT %QX4.0 : BOOL;
    Dirty AT %QX4.1 : BOOL;   (* the strainer, after three fillings *)
    Level : REAL;
    Guard : Band;
    Rest : TOF;
  END_VAR
  VAR RETAIN
    Fillings : CTU;
  END_VAR

  LD Counts
  Metres
  ST Level
  CAL Guard(Value := Level, Low := 2.0)
  CAL Rest(IN := Guard.Fill, PT := t#1s500ms)
  LD Rest.Q
  ST Pump
  CAL Fillings(CU := Pump, R := Again, PV := 3, Q => Dirty)
  LD Level
  MUL 1000.0
  REAL_TO_INT
  ST %QW0
  LD Level
  LT Guard.Low
  JMPCN DONE
  LD 1
  ST %QW1
  RET
  DONE:
  LD 0
  ST %QW1
END_PROGRAM
