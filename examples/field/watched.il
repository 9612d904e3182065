(* The motor of motor.il, behind plc field by watched.toml. Each side sees that the other goes on: plc field counts its
   cycles in BEAT, and where the count stands still for a second the motor stops; the program counts its scans in SCANS,
   which plc field watches. READY says that the inputs are real. After each of these the motor starts by START alone. *)
VAR
  START    AT %IX0.0 : BOOL;   (* start button *)
  STOP_OK  AT %IX0.1 : BOOL;   (* stop button, TRUE while not pressed *)
  RELAY_OK AT %IX0.2 : BOOL;   (* overload relay, TRUE while not tripped *)
  READY    AT %IX63.7 : BOOL;  (* the inputs were read of the devices *)
  BEAT     AT %IW62 : INT;     (* cycles of plc field *)
  RUN      AT %QX0.0 : BOOL;   (* contactor of the motor *)
  GREEN    AT %QX0.1 : BOOL;   (* lamp: running *)
  RED      AT %QX0.2 : BOOL;   (* lamp: stopped *)
  SCANS    AT %QW0 : INT;      (* scans *)
  LAST : INT;
  SAME : BOOL;
  DEAD : TON;
END_VAR

LD   BEAT                      (* whether it stands still, *)
EQ   LAST
ST   SAME
LD   BEAT
ST   LAST
CAL  DEAD(IN := SAME, PT := T#1s)
LD   START                     (* pressed, *)
OR   RUN                       (* or running already, *)
AND  STOP_OK                   (* and not told to stop, *)
AND  RELAY_OK                  (* and not overloaded, *)
AND  READY                     (* by inputs that are real, *)
ANDN DEAD.Q                    (* of a field that goes on *)
ST   RUN
ST   GREEN
STN  RED
LD   SCANS
ADD  1
MOD  1000
ST   SCANS
