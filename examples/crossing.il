PROGRAM crossing
(* A traffic light with a pedestrian request. Cars have green for at least 5 s; once somebody has
   asked, they get 2 s of amber and red, and walkers 4 s of green with 1 s of red before and behind. *)
VAR
  BUTTON AT %IX0.0 : BOOL;   (* the walkers' button *)
  RED    AT %QX0.0 : BOOL;
  AMBER  AT %QX0.1 : BOOL;
  GREEN  AT %QX0.2 : BOOL;
  WALK   AT %QX0.3 : BOOL;
  WAIT   AT %QX0.4 : BOOL;   (* the lamp in the button *)

  PRESSED  : R_TRIG;
  ASKED    : SR;
  REST     : TON;            (* how long cars have had green *)
  PHASES   : TON;            (* how far a crossing is *)
  CROSSING : BOOL;
END_VAR

(* a request is kept until cars get amber *)
CAL  PRESSED(CLK := BUTTON)
CAL  ASKED(S1 := PRESSED.Q, R := AMBER, Q1 => WAIT)

(* it is served once cars have had green for long enough, and lasts 8 s *)
CAL  REST(IN := GREEN, PT := T#5s)
LD   WAIT
AND  REST.Q
S    CROSSING
LD   PHASES.Q
R    CROSSING
CAL  PHASES(IN := CROSSING, PT := T#8s)

LD   PHASES.ET
LT   T#2s
AND  CROSSING
ST   AMBER
LD   PHASES.ET
GE   T#3s
AND( PHASES.ET
LT   T#7s
)
AND  CROSSING
ST   WALK
LDN  CROSSING
ST   GREEN
LD   CROSSING
ANDN AMBER
ST   RED
END_PROGRAM
