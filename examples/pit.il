(* Two pumps empty a pit of rainwater. They take turns: each run begins with the one that ran less. From 150 cm on one
   pumps, from 220 cm on both, down to 40 cm. Each counts its seconds, hours and starts, and after eight hours a lamp
   asks to have its strainer cleaned. What is counted is retained: a warm start, as behind a fault, keeps it. *)
FUNCTION_BLOCK STOPWATCH               (* the time since its last call, up to an hour *)
  VAR_OUTPUT MS : DINT; END_VAR
  VAR        SINCE : TON; END_VAR

         CAL SINCE(IN := TRUE, PT := T#1h)
         LD  SINCE.ET
         TIME_TO_DINT
         ST  MS
         CAL SINCE(IN := FALSE)        (* and begins anew *)
         CAL SINCE(IN := TRUE)
END_FUNCTION_BLOCK

FUNCTION_BLOCK PUMP
  VAR_INPUT
    DEMAND   : BOOL;                   (* it shall pump *)
    TRIPPED  : BOOL;                   (* its motor's relay *)
    CLEANED  : BOOL;                   (* its strainer *)
    PASSED   : DINT;                   (* ms since the last scan *)
  END_VAR
  VAR_OUTPUT
    RUNS, DIRTY : BOOL;
    HOURS    : INT;
  END_VAR
  VAR_OUTPUT RETAIN
    SECONDS  : DINT;
    STARTS   : INT;
  END_VAR
  VAR RETAIN
    REST     : DINT;                   (* ms that aren't in SECONDS yet *)
    CLEAN_AT : DINT;                   (* SECONDS when it was cleaned *)
  END_VAR
  VAR CONSTANT
    HOUR     : DINT := 3600;           (* s *)
    INTERVAL : DINT := 28800;          (* 8 h *)
  END_VAR
  VAR START : R_TRIG; END_VAR

         LD  RUNS                      (* since the last scan *)
         JMPCN COUNTED
         LD  REST
         ADD PASSED
         ST  REST
         DIV 1000
         ADD SECONDS
         ST  SECONDS
         LD  REST
         MOD 1000
         ST  REST
COUNTED: LD  SECONDS
         DIV HOUR
         MIN DINT#32767
         DINT_TO_INT
         ST  HOURS
         LD  CLEANED
         JMPCN JUDGE
         LD  SECONDS
         ST  CLEAN_AT
JUDGE:   LD  SECONDS
         SUB CLEAN_AT
         GE  INTERVAL
         ST  DIRTY
         LD  DEMAND
         ANDN TRIPPED
         ST  RUNS
         CAL START(CLK := RUNS)
         LD  START.Q
         RETCN
         LD  STARTS
         ADD 1
         ST  STARTS
END_FUNCTION_BLOCK

PROGRAM pit
  VAR
    LEVEL   AT %IW0   : INT;           (* cm *)
    TRIP_1  AT %IX0.0 : BOOL;
    TRIP_2  AT %IX0.1 : BOOL;
    DONE_1  AT %IX0.2 : BOOL;          (* buttons: its strainer is clean *)
    DONE_2  AT %IX0.3 : BOOL;
    PUMP_1  AT %QX0.0 : BOOL;
    PUMP_2  AT %QX0.1 : BOOL;
    HIGH    AT %QX0.2 : BOOL;
    DIRTY_1 AT %QX0.3 : BOOL;
    DIRTY_2 AT %QX0.4 : BOOL;
    TIME_1  AT %QD0   : DINT;          (* seconds, for the plant's records *)
    TIME_2  AT %QD2   : DINT;
    P1, P2  : PUMP;
    ONE, BOTH, SECOND_LEADS, WANT_1, WANT_2 : BOOL;
    CLOCK   : STOPWATCH;
  END_VAR
  VAR CONSTANT
    LOW     : INT := 40;
    FULL    : INT := 150;
    FLOOD   : INT := 220;
  END_VAR

         CAL CLOCK
         LD  ONE                       (* who leads is decided before a run begins *)
         JMPC LEVELS
         LD  P1.SECONDS
         GT  P2.SECONDS
         ST  SECOND_LEADS
LEVELS:  LD  LEVEL
         GE  FULL
         S   ONE
         LD  LEVEL
         GE  FLOOD
         ST  HIGH
         S   BOTH
         LD  LEVEL
         LE  LOW
         R   ONE
         R   BOTH

         LD  ONE                       (* the one that leads; the other one in its place if it has tripped *)
         ANDN SECOND_LEADS
         OR( ONE
         AND TRIP_2
         )
         OR  BOTH
         ST  WANT_1
         LD  ONE
         AND SECOND_LEADS
         OR( ONE
         AND TRIP_1
         )
         OR  BOTH
         ST  WANT_2
         CAL P1(DEMAND := WANT_1, TRIPPED := TRIP_1, CLEANED := DONE_1, PASSED := CLOCK.MS,
                RUNS => PUMP_1, DIRTY => DIRTY_1, SECONDS => TIME_1)
         CAL P2(DEMAND := WANT_2, TRIPPED := TRIP_2, CLEANED := DONE_2, PASSED := CLOCK.MS,
                RUNS => PUMP_2, DIRTY => DIRTY_2, SECONDS => TIME_2)
END_PROGRAM
