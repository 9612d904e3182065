(* What calls hand over: a VAR_IN_OUT through three levels, one variable for two of them, places, inputs and outputs of
   instances; an instance that is called twice in a scan; inputs that keep what they were given. *)
FUNCTION_BLOCK INNER
  VAR_IN_OUT A, B : INT; END_VAR
  VAR_INPUT  BY : INT := 2; BACK : BOOL; END_VAR
  VAR_OUTPUT N : INT := 5; WAS : BOOL; END_VAR
         LD  A
         ADD BY
         MOD 1000
         ST  A
         LD  B
         SUB BY
         ADD A
         MOD 1000
         ST  B
         LD  BACK
         ST  WAS
         RETC
         LD  N
         ADD A
         MOD 500
         ST  N
END_FUNCTION_BLOCK

FUNCTION_BLOCK MIDDLE
  VAR_IN_OUT A : INT; C : BOOL; END_VAR
  VAR_INPUT  START : INT; END_VAR
  VAR_OUTPUT LEFT, RIGHT : INT; END_VAR
  VAR I : INNER; OWN : INT; EDGE : R_TRIG; END_VAR
         CAL I(A := A, B := OWN, BY := START, N => LEFT)
         CAL EDGE(CLK := C)
         LD  EDGE.Q
         CALC I(A := A, B := A, BACK := C, N => RIGHT)
         LD  I.WAS
         S   C
         LD  OWN
         GT  300
         R   C
         CAL I(B := I.BY, A := A, N => OWN, WAS => C)
         LD  I.BY
         MIN 900
         MAX -900
         ST  I.BY
END_FUNCTION_BLOCK

FUNCTION_BLOCK OUTER
  VAR_IN_OUT A : INT; C : BOOL; END_VAR
  VAR M1, M2 : MIDDLE; COUNT : INT; END_VAR
         CAL M1(A := A, C := C, START := COUNT, RIGHT => COUNT)
         CAL M2(C := C, A := M1.START, LEFT => M1.START)
END_FUNCTION_BLOCK

PROGRAM passed
  VAR
    O1, O2 : OUTER;
    N  AT %QW0 : INT := 9;
    HERE : INT := -4;
    ON AT %QX0.0 : BOOL;
    GO AT %IX0.0 : BOOL;
  END_VAR
         LD  HERE
         ADD %IW0
         MOD 700
         ST  HERE
         LD  GO
         CALC O1(A := N, C := ON)
         CAL O2(A := HERE, C := %QX0.1)
         LDN GO
         CALC O2(A := %QW3, C := %MX0.1)
         LD  HERE
         ST  %QW2
         LD  %MX0.1
         ST  %QX0.2
END_PROGRAM
