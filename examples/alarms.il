(* The alarms of a boiler: eight causes, eight lamps, a horn, and which came first (first-up). A cause counts once it
   was there for half a second. Then the horn sounds and the lamp flashes: fast if it was the first of all, else slowly;
   so whoever comes sees what began it. QUIT stops the horn and makes lamps steady; a lamp goes out once its cause is
   gone and was acknowledged. When no lamp is left, the next alarm is a first one again. *)
FUNCTION_BLOCK BLINKER                 (* Q is TRUE for a while, and FALSE as long *)
  VAR_INPUT  HALF : TIME; END_VAR
  VAR_OUTPUT Q : BOOL; END_VAR
  VAR        T : TON; END_VAR

         CAL T(IN := TRUE, PT := HALF)
         LD  T.Q
         RETCN
         CAL T(IN := FALSE)            (* and begins anew *)
         CAL T(IN := TRUE)
         LDN Q
         ST  Q
END_FUNCTION_BLOCK

FUNCTION_BLOCK ALARM
  VAR_INPUT
    NUMBER  : INT;
    CAUSE   : BOOL;
    QUIT    : BOOL;
    SLOW, FAST : BOOL;                 (* the two rhythms *)
    PATIENCE : TIME := T#500ms;
  END_VAR
  VAR_OUTPUT LAMP : BOOL; END_VAR
  VAR_IN_OUT
    HORN    : BOOL;
    FIRST   : INT;                     (* the first one's number, 0 while there is none *)
    OPEN    : INT;                     (* how many lamps are on or flash *)
  END_VAR
  VAR
    LASTS   : TON;
    COMES   : R_TRIG;
    NEW     : BOOL;                    (* not acknowledged yet *)
    IS_FIRST, RHYTHM : BOOL;
  END_VAR

         CAL LASTS(IN := CAUSE, PT := PATIENCE)
         CAL COMES(CLK := LASTS.Q)
         LD  COMES.Q
         S   NEW
         S   HORN
         AND( FIRST
         EQ  0
         )
         JMPCN KNOWN
         LD  NUMBER
         ST  FIRST
KNOWN:   LD  QUIT
         R   NEW
         LD  FIRST
         EQ  NUMBER
         ST  IS_FIRST
         SEL SLOW, FAST
         ST  RHYTHM
         LD  NEW
         SEL LASTS.Q, RHYTHM
         ST  LAMP
         LD  NEW
         OR  LASTS.Q
         RETCN
         LD  OPEN
         ADD 1
         ST  OPEN
END_FUNCTION_BLOCK

PROGRAM boiler
  VAR
    QUIT    AT %IX1.0 : BOOL;
    HORN    AT %QX1.0 : BOOL;
    FIRST   AT %QW0   : INT;
    OPEN    AT %QW1   : INT;
    SLOW, FAST : BLINKER;
    WATER, STEAM, FLAME, GAS, AIR, DRAUGHT, FEED, POWER : ALARM;
  END_VAR

         CAL SLOW(HALF := T#800ms)
         CAL FAST(HALF := T#200ms)
         LD  0
         ST  OPEN
         CAL WATER(NUMBER := 1, CAUSE := %IX0.0, QUIT := QUIT, SLOW := SLOW.Q, FAST := FAST.Q, PATIENCE := T#2s,
                   HORN := HORN, FIRST := FIRST, OPEN := OPEN, LAMP => %QX0.0)  (* it swings *)
         CAL STEAM(NUMBER := 2, CAUSE := %IX0.1, QUIT := QUIT, SLOW := SLOW.Q, FAST := FAST.Q,
                   HORN := HORN, FIRST := FIRST, OPEN := OPEN, LAMP => %QX0.1)
         CAL FLAME(NUMBER := 3, CAUSE := %IX0.2, QUIT := QUIT, SLOW := SLOW.Q, FAST := FAST.Q,
                   HORN := HORN, FIRST := FIRST, OPEN := OPEN, LAMP => %QX0.2)
         CAL GAS(NUMBER := 4, CAUSE := %IX0.3, QUIT := QUIT, SLOW := SLOW.Q, FAST := FAST.Q,
                 HORN := HORN, FIRST := FIRST, OPEN := OPEN, LAMP => %QX0.3)
         CAL AIR(NUMBER := 5, CAUSE := %IX0.4, QUIT := QUIT, SLOW := SLOW.Q, FAST := FAST.Q,
                 HORN := HORN, FIRST := FIRST, OPEN := OPEN, LAMP => %QX0.4)
         CAL DRAUGHT(NUMBER := 6, CAUSE := %IX0.5, QUIT := QUIT, SLOW := SLOW.Q, FAST := FAST.Q,
                     HORN := HORN, FIRST := FIRST, OPEN := OPEN, LAMP => %QX0.5)
         CAL FEED(NUMBER := 7, CAUSE := %IX0.6, QUIT := QUIT, SLOW := SLOW.Q, FAST := FAST.Q,
                  HORN := HORN, FIRST := FIRST, OPEN := OPEN, LAMP => %QX0.6)
         CAL POWER(NUMBER := 8, CAUSE := %IX0.7, QUIT := QUIT, SLOW := SLOW.Q, FAST := FAST.Q,
                   HORN := HORN, FIRST := FIRST, OPEN := OPEN, LAMP => %QX0.7)
         LD  QUIT
         R   HORN
         LD  OPEN
         EQ  0
         RETCN
         LD  0
         ST  FIRST
END_PROGRAM
