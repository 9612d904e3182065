(* A motor with a start button, a stop button and a contact that keeps it running.
   The stop button and the overload relay are wired normally closed: their inputs are
   TRUE while nobody presses and nothing has tripped, so a broken wire stops the motor. *)
VAR
  START    AT %IX0.0 : BOOL;  (* start button *)
  STOP_OK  AT %IX0.1 : BOOL;  (* stop button, TRUE while not pressed *)
  RELAY_OK AT %IX0.2 : BOOL;  (* overload relay, TRUE while not tripped *)
  RUN      AT %QX0.0 : BOOL;  (* contactor of the motor *)
  GREEN    AT %QX0.1 : BOOL;  (* lamp: running *)
  RED      AT %QX0.2 : BOOL;  (* lamp: stopped *)
END_VAR

LD  START                     (* pressed, *)
OR  RUN                       (* or running already, *)
AND STOP_OK                   (* and not told to stop, *)
AND RELAY_OK                  (* and not overloaded *)
ST  RUN
ST  GREEN
STN RED
