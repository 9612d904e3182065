(* Two heating circuits of a house, each with a mixing valve of 0 to 100 per cent. The block is a PI controller:
   OUT = GAIN * error + SUM, where SUM grows by GAIN * error / RESET each second, and stands still while OUT is at a
   limit. By hand the valve is as somebody says; SUM follows, so that AUTO takes over without a jump. *)
FUNCTION_BLOCK STOPWATCH               (* the seconds since its last call, up to a minute *)
  VAR_OUTPUT SECONDS : REAL; END_VAR
  VAR        SINCE : TON; END_VAR

         CAL SINCE(IN := TRUE, PT := T#1m)
         LD  SINCE.ET
         TIME_TO_REAL
         DIV 1000.0
         ST  SECONDS
         CAL SINCE(IN := FALSE)        (* and begins anew *)
         CAL SINCE(IN := TRUE)
END_FUNCTION_BLOCK

FUNCTION_BLOCK PI
  VAR_INPUT
    AUTO    : BOOL;
    WANTED  : REAL;                    (* degrees *)
    IS      : REAL;
    BY_HAND : REAL;                    (* per cent *)
    PASSED  : REAL;                    (* s *)
    GAIN    : REAL := 2.5;             (* per cent a degree *)
    RESET   : REAL := 40.0;            (* s *)
  END_VAR
  VAR_OUTPUT OUT : REAL; END_VAR
  VAR        ERROR, SUM, WHOLE : REAL; END_VAR

         LD  WANTED
         SUB IS
         ST  ERROR
         LD  AUTO
         JMPC CONTROL
         LD  0.0
         LIMIT BY_HAND, 100.0
         ST  OUT
         SUB( ERROR
         MUL GAIN
         )
         ST  SUM
         RET
CONTROL: LD  ERROR
         MUL GAIN
         ADD SUM
         ST  WHOLE
         LD  0.0
         LIMIT WHOLE, 100.0
         ST  OUT
         NE  WHOLE
         RETC
         LD  ERROR
         MUL GAIN
         MUL PASSED
         DIV RESET
         ADD SUM
         ST  SUM
END_FUNCTION_BLOCK

FUNCTION DEGREES : REAL                (* of tenths *)
  VAR_INPUT TENTHS : INT; END_VAR

         LD  TENTHS
         INT_TO_REAL
         DIV 10.0
         ST  DEGREES
END_FUNCTION

FUNCTION TENTHS : INT
  VAR_INPUT VALUE : REAL; END_VAR

         LD  VALUE
         MUL 10.0
         REAL_TO_INT
         ST  TENTHS
END_FUNCTION

PROGRAM circuits
  VAR
    AUTO_1  AT %IX0.0 : BOOL;
    AUTO_2  AT %IX0.1 : BOOL;
    SUPPLY_1 AT %IW0  : INT;           (* tenths of a degree *)
    SUPPLY_2 AT %IW1  : INT;
    OUTSIDE AT %IW2   : INT;
    VALVE_1 AT %QW0   : INT;           (* tenths of a per cent *)
    VALVE_2 AT %QW1   : INT;
    WANTED  AT %QW2   : INT;           (* of circuit 1, tenths of a degree *)
    CLOCK   : STOPWATCH;
    RADIATORS, FLOOR : PI;
    CURVE, IS_1, IS_2 : REAL;
  END_VAR

         CAL CLOCK
         LD  OUTSIDE                   (* 20 degrees outside: 25; 15 below zero: 60 *)
         DEGREES
         SUB 20.0
         MUL -1.0
         ADD 25.0
         MAX 25.0
         MIN 60.0
         ST  CURVE
         TENTHS
         ST  WANTED
         LD  SUPPLY_1
         DEGREES
         ST  IS_1
         LD  SUPPLY_2
         DEGREES
         ST  IS_2
         CAL RADIATORS(AUTO := AUTO_1, WANTED := CURVE, IS := IS_1, BY_HAND := 30.0, PASSED := CLOCK.SECONDS)
         CAL FLOOR(AUTO := AUTO_2, WANTED := 32.0, IS := IS_2, BY_HAND := 10.0, PASSED := CLOCK.SECONDS,
                   GAIN := 1.5, RESET := 90.0)
         LD  RADIATORS.OUT
         TENTHS
         ST  VALVE_1
         LD  FLOOR.OUT
         TENTHS
         ST  VALVE_2
END_PROGRAM
