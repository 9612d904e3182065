(* A kneader in a bakery: flour, water, kneading, and out with it, by one of three recipes: wheat, rye, spelt. A recipe
   is a column of the two functions below. A block says what a phase is: it acts while the step is its number, and hands
   the step on once it's done and its time is over. What the kneader weighed in all is retained. *)
FUNCTION AMOUNT : INT                  (* kg of flour, of flour and water, by recipe *)
  VAR_INPUT RECIPE : INT; WITH_WATER : BOOL; END_VAR
  VAR FLOUR, ALL : INT; END_VAR

         LD  RECIPE
         MUX 60, 50, 45
         ST  FLOUR
         LD  RECIPE
         MUX 96, 88, 74
         ST  ALL
         LD  WITH_WATER
         SEL FLOUR, ALL
         ST  AMOUNT
END_FUNCTION

FUNCTION KNEADING : TIME
  VAR_INPUT RECIPE : INT; END_VAR

         LD  RECIPE
         MUX T#12m, T#6m, T#8m
         ST  KNEADING
END_FUNCTION

FUNCTION_BLOCK PHASE
  VAR_INPUT
    NUMBER, NEXT : INT;
    DONE    : BOOL := TRUE;            (* may go on *)
    LEAST   : TIME;                    (* but not before that *)
  END_VAR
  VAR_OUTPUT ACTS : BOOL; END_VAR
  VAR_IN_OUT STEP : INT; END_VAR
  VAR        TIMER : TON; END_VAR

         LD  STEP
         EQ  NUMBER
         ST  ACTS
         CAL TIMER(IN := ACTS, PT := LEAST)
         LD  TIMER.Q
         AND DONE
         RETCN
         LD  NEXT
         ST  STEP
         LD  FALSE
         ST  ACTS
         CAL TIMER(IN := FALSE)
END_FUNCTION_BLOCK

PROGRAM kneader
  VAR
    START   AT %IX0.0 : BOOL;
    EMPTY   AT %IX0.1 : BOOL;
    WANTED  AT %IW0   : INT;           (* 0 wheat, 1 rye, 2 spelt *)
    WEIGHT  AT %IW1   : INT;           (* kg in the bowl *)
    FLOUR   AT %QX0.0 : BOOL;
    WATER   AT %QX0.1 : BOOL;
    ARM     AT %QX0.2 : BOOL;
    TILT    AT %QX0.3 : BOOL;
    STEP    AT %QW0   : INT;
    RECIPE  AT %QW1   : INT;           (* that of the dough in the bowl *)
    FULL, MIXED : BOOL;
    LONG    : TIME;
    P0, P1, P2, P3, P4 : PHASE;
    TAKEN   : R_TRIG;
  END_VAR
  VAR RETAIN
    TOTAL   AT %QD2   : DINT;          (* kg of dough, all days *)
  END_VAR

         CAL P0(NUMBER := 0, NEXT := 1, DONE := START, STEP := STEP)
         LD  STEP                      (* a recipe is taken when a dough begins, within those that there are *)
         EQ  1
         ANDN P1.ACTS
         JMPCN WEIGH
         LD  0
         LIMIT WANTED, 2
         ST  RECIPE
WEIGH:   LD  RECIPE
         AMOUNT FALSE
         LE  WEIGHT
         ST  FULL
         LD  RECIPE
         AMOUNT TRUE
         LE  WEIGHT
         ST  MIXED
         LD  RECIPE
         KNEADING
         ST  LONG
         CAL P1(NUMBER := 1, NEXT := 2, DONE := FULL, STEP := STEP, ACTS => FLOUR)
         CAL P2(NUMBER := 2, NEXT := 3, DONE := MIXED, STEP := STEP, ACTS => WATER)
         CAL P3(NUMBER := 3, NEXT := 4, LEAST := LONG, STEP := STEP, ACTS => ARM)
         CAL P4(NUMBER := 4, NEXT := 0, DONE := EMPTY, LEAST := T#10s, STEP := STEP, ACTS => TILT)
         CAL TAKEN(CLK := TILT)
         LD  TAKEN.Q
         RETCN
         LD  WEIGHT
         INT_TO_DINT
         ADD TOTAL
         ST  TOTAL
END_PROGRAM
