(* Twelve belts in a row, as in a gravel works: each carries onto the next one. So a belt only runs while the next one
   does, and starts two seconds behind it: belt 12 first, belt 1 last. A contactor that doesn't do what it's told within
   a second is a fault of its motor: that belt stops, and all those before it, until somebody acknowledges.
   One block says what a motor is; there are twelve of them. *)
FUNCTION_BLOCK HELD                    (* Q once IN was TRUE for so long *)
  VAR_INPUT  IN : BOOL; LONG : TIME; END_VAR
  VAR_OUTPUT Q : BOOL; END_VAR
  VAR        DELAY : TON; END_VAR

         CAL DELAY(IN := IN, PT := LONG, Q => Q)
END_FUNCTION_BLOCK

FUNCTION_BLOCK MOTOR
  VAR_INPUT
    WANTED   : BOOL;                   (* it may run *)
    CLOSED   : BOOL;                   (* a contact of its contactor *)
    QUIT     : BOOL;                   (* a fault is acknowledged *)
    PAUSE    : TIME := T#2s;           (* from WANTED until it starts *)
  END_VAR
  VAR_OUTPUT
    RUNS     : BOOL;                   (* the contactor, as it's told *)
    FAULT    : BOOL;
    STARTS   : INT;
  END_VAR
  VAR_IN_OUT
    MOVING   : INT;                    (* of all motors: how many run, *)
    TROUBLE  : BOOL;                   (* and whether one has a fault *)
  END_VAR
  VAR
    READY, WRONG : HELD;
    START    : R_TRIG;
  END_VAR

         CAL READY(IN := WANTED, LONG := PAUSE)
         LD  RUNS                      (* as it was told in the last scan *)
         XOR CLOSED
         ST  WRONG.IN
         CAL WRONG(LONG := T#1s)
         LD  WRONG.Q
         S   FAULT
         LD  QUIT
         ANDN WRONG.Q
         R   FAULT
         LD  FAULT
         OR  TROUBLE
         ST  TROUBLE
         LD  READY.Q
         ANDN FAULT
         ST  RUNS
         CAL START(CLK := RUNS)
         LD  RUNS
         RETCN                         (* what follows is for a motor that runs *)
         LD  MOVING
         ADD 1
         ST  MOVING
         LD  START.Q
         RETCN
         LD  STARTS
         ADD 1
         ST  STARTS
END_FUNCTION_BLOCK

PROGRAM belts
  VAR
    LINE    AT %IX2.0 : BOOL;          (* the belts shall run *)
    QUIT    AT %IX2.1 : BOOL;
    TROUBLE AT %QX7.0 : BOOL;
    MOVING  AT %QW0   : INT;
    M1, M2, M3, M4, M5, M6, M7, M8, M9, M10, M11, M12 : MOTOR;
  END_VAR

         LD  FALSE
         ST  TROUBLE
         LD  0
         ST  MOVING
         CAL M12(WANTED := LINE, CLOSED := %IX1.3, QUIT := QUIT, MOVING := MOVING, TROUBLE := TROUBLE,
                 RUNS => %QX1.3)
         CAL M11(WANTED := M12.RUNS, CLOSED := %IX1.2, QUIT := QUIT, MOVING := MOVING, TROUBLE := TROUBLE,
                 RUNS => %QX1.2)
         CAL M10(WANTED := M11.RUNS, CLOSED := %IX1.1, QUIT := QUIT, MOVING := MOVING, TROUBLE := TROUBLE,
                 RUNS => %QX1.1)
         CAL M9(WANTED := M10.RUNS, CLOSED := %IX1.0, QUIT := QUIT, MOVING := MOVING, TROUBLE := TROUBLE,
                RUNS => %QX1.0)
         CAL M8(WANTED := M9.RUNS, CLOSED := %IX0.7, QUIT := QUIT, MOVING := MOVING, TROUBLE := TROUBLE,
                RUNS => %QX0.7)
         CAL M7(WANTED := M8.RUNS, CLOSED := %IX0.6, QUIT := QUIT, MOVING := MOVING, TROUBLE := TROUBLE,
                RUNS => %QX0.6)
         CAL M6(WANTED := M7.RUNS, CLOSED := %IX0.5, QUIT := QUIT, MOVING := MOVING, TROUBLE := TROUBLE,
                RUNS => %QX0.5)
         CAL M5(WANTED := M6.RUNS, CLOSED := %IX0.4, QUIT := QUIT, MOVING := MOVING, TROUBLE := TROUBLE,
                RUNS => %QX0.4)
         CAL M4(WANTED := M5.RUNS, CLOSED := %IX0.3, QUIT := QUIT, MOVING := MOVING, TROUBLE := TROUBLE,
                RUNS => %QX0.3)
         CAL M3(WANTED := M4.RUNS, CLOSED := %IX0.2, QUIT := QUIT, MOVING := MOVING, TROUBLE := TROUBLE,
                RUNS => %QX0.2)
         CAL M2(WANTED := M3.RUNS, CLOSED := %IX0.1, QUIT := QUIT, MOVING := MOVING, TROUBLE := TROUBLE,
                RUNS => %QX0.1)
         CAL M1(WANTED := M2.RUNS, CLOSED := %IX0.0, QUIT := QUIT, MOVING := MOVING, TROUBLE := TROUBLE,
                PAUSE := T#5s, RUNS => %QX0.0)   (* the hopper opens with it: all others are up to speed then *)
END_PROGRAM
