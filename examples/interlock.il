(* A gate that a drive opens and closes. The two directions lock each other out, an end switch
   ends its direction, the light barrier stops closing and lets opening go on, and the stop
   button ends both. *)
VAR
  OPEN_BUTTON  AT %IX0.0 : BOOL;
  CLOSE_BUTTON AT %IX0.1 : BOOL;
  NOT_OPEN     AT %IX0.2 : BOOL;   (* end switches, wired normally closed *)
  NOT_CLOSED   AT %IX0.3 : BOOL;
  PATH_CLEAR   AT %IX0.4 : BOOL;   (* light barrier: TRUE while nothing stands in the way *)
  STOP_OK      AT %IX0.5 : BOOL;   (* stop button, TRUE while not pressed *)
  OPENING      AT %QX0.0 : BOOL;   (* contactors of the two directions *)
  CLOSING      AT %QX0.1 : BOOL;
  AT_REST : BOOL;
END_VAR

LDN CLOSING                        (* opens where it doesn't close *)
ST  AT_REST
LD  OPEN_BUTTON
OR  OPENING
AND NOT_OPEN
AND STOP_OK
AND AT_REST
ST  OPENING

LDN OPENING                        (* closes where it doesn't open *)
ST  AT_REST
LD  CLOSE_BUTTON
OR  CLOSING
AND NOT_CLOSED
AND PATH_CLEAR
AND STOP_OK
AND AT_REST
ST  CLOSING
