(* From conveyor.xml, by tools/user/import. *)

(* A motor with a thermal relay: a fault of it stays until nothing is wanted. *)
FUNCTION_BLOCK Motor
  VAR_INPUT
    ON : BOOL;
    COOL : BOOL;   (* the thermal relay's contact *)
    DELAY : TIME;
  END_VAR
  VAR_OUTPUT
    RUN : BOOL;
    FAULT : BOOL;
  END_VAR
  VAR_IN_OUT
    STARTS : INT;
  END_VAR
  VAR
    WAIT : TON;
    BEGUN : R_TRIG;
  END_VAR

  LD    ON
  ANDN  COOL
  S     FAULT
  LDN   ON
  R     FAULT
  LD    ON
  ANDN  FAULT
  ST    WAIT.IN
  CAL   WAIT(PT := DELAY)
  LD    WAIT.Q
  ST    RUN
  CAL   BEGUN(CLK := RUN)
  LD    BEGUN.Q
  RETCN
  LD    STARTS
  ADD   1
  ST    STARTS
END_FUNCTION_BLOCK

FUNCTION TurnsOf : INT
  VAR_INPUT
    PART : INT;
    WHOLE : INT;
  END_VAR
  VAR
    PRODUCT : DINT;
  END_VAR

  LD    0
  LIMIT PART, 100
  INT_TO_DINT
  ST    PRODUCT
  LD    WHOLE
  INT_TO_DINT
  MUL   PRODUCT
  DIV   100
  DINT_TO_INT
  ST    TurnsOf
END_FUNCTION

PROGRAM conveyor
  VAR
    SPEED AT %IW0 : INT;   (* per cent, of a potentiometer *)
    TURNS AT %QW0 : INT;
    STARTS AT %QW1 : INT;
    UPPER : Motor;
    LOWER : Motor;
  END_VAR
  VAR RETAIN
    HELD : BOOL;
  END_VAR
  VAR CONSTANT
    FASTEST : INT := 1450;
  END_VAR
  VAR
    START AT %IX0.0 : BOOL;
  END_VAR

  (* The upper belt carries onto the lower one, so it starts two seconds later,
     and not before that one runs. *)
  LD    START
  ANDN  %IX0.3
  ST    HELD
  CAL   LOWER(ON := HELD, COOL := %IX0.1, STARTS := STARTS, RUN => %QX0.1)
  CAL   UPPER(
    ON := LOWER.RUN,
    COOL := %IX0.2,
    DELAY := T#2s,
    STARTS := STARTS,
    RUN => %QX0.0
  )
  LD    LOWER.FAULT
  OR    UPPER.FAULT
  ST    %QX0.2
  LD    SPEED
  TurnsOf FASTEST
  ST    TURNS
END_PROGRAM
