(* From tank.exp, by tools/user/import. *)

FUNCTION METRES : REAL
  VAR_INPUT
    COUNTS : INT;
  END_VAR
  VAR CONSTANT
    WHOLE : REAL := 27648.0;
  END_VAR

  LD      COUNTS
  INT_TO_REAL
  DIV     WHOLE
  MUL     5.0
  MAX     0.0
  ST      METRES
END_FUNCTION

FUNCTION_BLOCK BAND
  VAR_INPUT
    VALUE : REAL;
    LOW : REAL := 1.0;
    HIGH : REAL := 4.5;
  END_VAR
  VAR_OUTPUT
    FILL : BOOL;
  END_VAR
  VAR
    CHOSEN : RS;
    BELOW : BOOL;
    ABOVE : BOOL;
  END_VAR

  LD      VALUE
  LT      LOW
  ST      BELOW
  LD      VALUE
  GT      HIGH
  ST      ABOVE
  CAL     CHOSEN(S := BELOW, R1 := ABOVE)
  LD      CHOSEN.Q1
  ST      FILL
END_FUNCTION_BLOCK

PROGRAM PLC_PRG
  VAR
    COUNTS AT %IW0 : INT;   (* 0 to 27648, of 5 metres *)
    (* behind the words of the analogue inputs *)
    AGAIN AT %IX4.0 : BOOL;
    PUMP AT %QX4.0 : BOOL;
    DIRTY AT %QX5.7 : BOOL;   (* the strainer, after three fillings *)
    LEVEL : REAL;
    GUARD : BAND;
    REST : TOF;
  END_VAR
  VAR RETAIN
    FILLINGS : CTU;
  END_VAR

          LD      COUNTS
          METRES
          ST      LEVEL
          CAL     GUARD(VALUE := LEVEL, LOW := 2.0)
          CAL     REST(IN := GUARD.FILL, PT := t#1s500ms)
          LD      REST.Q
          ST      PUMP
          CAL     FILLINGS(CU := PUMP, R := AGAIN, PV := 3, Q => DIRTY)
          LD      LEVEL
          MUL     1.0E3
          REAL_TO_INT
          ST      %QW0
          LD      LEVEL
          LT      GUARD.LOW
          JMPCN   DONE
          LD      1
          ST      %QW1
          RET
  DONE:
          LD      0
          ST      %QW1
END_PROGRAM
