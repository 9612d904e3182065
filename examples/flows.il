(* Two flow meters of a dairy. Each flow, in litres an hour, is added up over the time that passes between scans; whole
   litres are counted, and what is left over is kept. Each hundredth litre is a pulse of 200 ms for the old recorder.
   Counts outlive a warm start; a client clears them when a tanker has left. *)
FUNCTION_BLOCK STOPWATCH               (* the ms since its last call, up to an hour *)
  VAR_OUTPUT MS : REAL; END_VAR
  VAR        SINCE : TON; END_VAR

         CAL SINCE(IN := TRUE, PT := T#1h)
         LD  SINCE.ET
         TIME_TO_REAL
         ST  MS
         CAL SINCE(IN := FALSE)        (* and begins anew *)
         CAL SINCE(IN := TRUE)
END_FUNCTION_BLOCK

FUNCTION_BLOCK METER
  VAR_INPUT
    FLOW    : REAL;                    (* litres an hour *)
    MS      : REAL;                    (* since the last call *)
    CLEAR   : BOOL;
    EACH    : DINT := 100;             (* litres to a pulse *)
  END_VAR
  VAR_OUTPUT PULSE : BOOL; END_VAR
  VAR_OUTPUT RETAIN LITRES : DINT; END_VAR
  VAR RETAIN
    REST    : REAL;                    (* of a litre *)
    SINCE   : DINT;                    (* the last pulse *)
  END_VAR
  VAR CONSTANT HOUR : REAL := 3600000.0; END_VAR
  VAR
    WHOLE   : DINT;
    AS_REAL : REAL;
    SIGNAL  : TP;
  END_VAR

         LD  0.0                       (* what flows back doesn't count, nor what no pipe carries *)
         LIMIT FLOW, 50000.0
         MUL MS
         DIV HOUR
         ADD REST
         ST  REST
         TRUNC
         ST  WHOLE
         DINT_TO_REAL
         ST  AS_REAL
         LD  REST
         SUB AS_REAL
         ST  REST
         LD  LITRES
         ADD WHOLE
         MOD 1000000000
         ST  LITRES
         LD  SINCE
         ADD WHOLE
         ST  SINCE
         GE  EACH
         ST  SIGNAL.IN
         CAL SIGNAL(PT := T#200ms, Q => PULSE)
         LD  SINCE
         MOD EACH
         ST  SINCE
         LD  CLEAR
         RETCN
         LD  DINT#0
         ST  LITRES
         ST  SINCE
         LD  0.0
         ST  REST
END_FUNCTION_BLOCK

PROGRAM flows
  VAR
    MILK    AT %ID0   : REAL;
    WHEY    AT %ID2   : REAL;
    LEFT    AT %IX0.0 : BOOL;          (* the tanker *)
    PULSE_1 AT %QX0.0 : BOOL;
    PULSE_2 AT %QX0.1 : BOOL;
    LITRES_1 AT %QD0  : DINT;
    LITRES_2 AT %QD2  : DINT;
    CLOCK   : STOPWATCH;
    M1, M2  : METER;
    LEAVES  : R_TRIG;
  END_VAR

         CAL CLOCK
         CAL LEAVES(CLK := LEFT)
         CAL M1(FLOW := MILK, MS := CLOCK.MS, CLEAR := LEAVES.Q, LITRES => LITRES_1, PULSE => PULSE_1)
         CAL M2(FLOW := WHEY, MS := CLOCK.MS, EACH := 1000, LITRES => LITRES_2, PULSE => PULSE_2)
END_PROGRAM
