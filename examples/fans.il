(* Two fans of a tunnel. Each follows the speed that is wanted with a slope of its own, up and down, and never stays
   between 430 and 470 turns a minute, where it resonates: what is wanted there becomes 430. Off means down to 0. *)
FUNCTION AROUND : REAL                 (* X, but the lower end of a band that X is in *)
  VAR_INPUT X, LOW, HIGH : REAL; END_VAR

         LD  X
         ST  AROUND
         LE  LOW
         OR( X
         GE  HIGH
         )
         RETC
         LD  LOW
         ST  AROUND
END_FUNCTION

FUNCTION_BLOCK STOPWATCH               (* the seconds since its last call, up to ten *)
  VAR_OUTPUT SECONDS : REAL; END_VAR
  VAR        SINCE : TON; END_VAR

         CAL SINCE(IN := TRUE, PT := T#10s)
         LD  SINCE.ET
         TIME_TO_REAL
         DIV 1000.0
         ST  SECONDS
         CAL SINCE(IN := FALSE)        (* and begins anew *)
         CAL SINCE(IN := TRUE)
END_FUNCTION_BLOCK

FUNCTION_BLOCK RAMP
  VAR_INPUT
    ON      : BOOL;
    WANTED  : REAL;                    (* turns a minute *)
    UP      : REAL := 50.0;            (* turns a minute, each second *)
    DOWN    : REAL := 25.0;
  END_VAR
  VAR_OUTPUT SPEED : REAL; THERE : BOOL; END_VAR
  VAR
    CLOCK   : STOPWATCH;
    GOAL, LEAST, MOST : REAL;
  END_VAR

         CAL CLOCK
         LD  0.0
         LIMIT WANTED, 1450.0
         AROUND 430.0, 470.0
         ST  GOAL
         LD  ON
         SEL 0.0, GOAL
         ST  GOAL
         LD  CLOCK.SECONDS             (* what it may come to until now *)
         MUL UP
         ADD SPEED
         ST  MOST
         LD  SPEED
         SUB( CLOCK.SECONDS
         MUL DOWN
         )
         ST  LEAST
         LIMIT GOAL, MOST
         ST  SPEED
         EQ  GOAL
         ST  THERE
END_FUNCTION_BLOCK

FUNCTION TURNS : INT
  VAR_INPUT SPEED : REAL; END_VAR

         LD  SPEED
         REAL_TO_INT
         ST  TURNS
END_FUNCTION

PROGRAM fans
  VAR
    ON_1    AT %IX0.0 : BOOL;
    ON_2    AT %IX0.1 : BOOL;
    WANTED_1 AT %IW0  : INT;
    WANTED_2 AT %IW1  : INT;
    THERE   AT %QX0.0 : BOOL;          (* both have the speed that is wanted *)
    SPEED_1 AT %QW0   : INT;
    SPEED_2 AT %QW1   : INT;
    W1, W2  : REAL;
    NORTH, SOUTH : RAMP;
  END_VAR

         LD  WANTED_1
         INT_TO_REAL
         ST  W1
         LD  WANTED_2
         INT_TO_REAL
         ST  W2
         CAL NORTH(ON := ON_1, WANTED := W1)
         CAL SOUTH(ON := ON_2, WANTED := W2, UP := 20.0, DOWN := 10.0)
         LD  NORTH.SPEED
         TURNS
         ST  SPEED_1
         LD  SOUTH.SPEED
         TURNS
         ST  SPEED_2
         LD  NORTH.THERE
         AND SOUTH.THERE
         ST  THERE
END_PROGRAM
