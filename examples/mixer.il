(* A mixer: water comes in up to the recipe's amount, the paddle stirs for the recipe's time, and the drain empties it.
   A client hands in a recipe with TAKE. The recipe, the count of batches and the paddle's seconds are retained: a warm
   start keeps them. It gives up the batch that is under way, so all valves are closed and nothing moves until somebody
   starts another one. After a reset all is as on the plant's first day. *)
VAR_GLOBAL RETAIN
  LITRES  AT %QW0 : INT := 100;    (* the recipe *)
  SECONDS AT %QW1 : INT := 20;
  BATCHES AT %QW2 : INT;
  STIRRED AT %QD4 : DINT;          (* how many seconds the paddle has run: its bearing is greased by that *)
  REST    : DINT;                  (* milliseconds that aren't in STIRRED yet *)
END_VAR
VAR_GLOBAL
  START       AT %IX0.0 : BOOL;
  TAKE        AT %IX0.1 : BOOL;
  LEVEL       AT %IW0   : INT;     (* litres *)
  NEW_LITRES  AT %IW1   : INT;
  NEW_SECONDS AT %IW2   : INT;
  WATER       AT %QX0.0 : BOOL;
  PADDLE      AT %QX0.1 : BOOL;
  DRAIN       AT %QX0.2 : BOOL;

  STIRRING : TON;
  SINCE    : TON;                  (* the time since the last scan *)
END_VAR

         CAL SINCE(IN := TRUE, PT := T#1h)
         LD  PADDLE                (* as the last scan left it *)
         JMPCN AGAIN
         LD  SINCE.ET
         TIME_TO_DINT
         ADD REST
         ST  REST
         DIV 1000
         ADD STIRRED
         MOD 1000000000
         ST  STIRRED
         LD  REST
         MOD 1000
         ST  REST
AGAIN:   CAL SINCE(IN := FALSE)    (* and begins anew *)
         CAL SINCE(IN := TRUE)

         LD  TAKE                  (* a recipe is taken between batches, within what the mixer can do *)
         ANDN WATER
         ANDN PADDLE
         ANDN DRAIN
         JMPCN WORK
         LD  NEW_LITRES
         MAX 10
         MIN 400
         ST  LITRES
         LD  NEW_SECONDS
         MAX 1
         MIN 600
         ST  SECONDS

WORK:    LD  START
         ANDN PADDLE
         ANDN DRAIN
         S   WATER
         LD  LEVEL
         GE  LITRES
         AND WATER
         S   PADDLE
         R   WATER

         LD  SECONDS
         INT_TO_DINT
         MUL 1000
         DINT_TO_TIME
         ST  STIRRING.PT
         CAL STIRRING(IN := PADDLE)
         LD  STIRRING.Q
         R   PADDLE
         S   DRAIN

         LD  LEVEL
         LE  0
         AND DRAIN
         JMPCN DONE
         R   DRAIN
         LD  BATCHES
         ADD 1
         MOD 10000
         ST  BATCHES
DONE:
