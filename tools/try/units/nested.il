(* Functions in functions, in blocks, in blocks; one label and one name in all of them; calls that are made or not. *)
FUNCTION HELD_IN : INT                 (* X within the two others *)
  VAR_INPUT X, LOW, HIGH : INT; END_VAR
  VAR V : INT := 3; END_VAR
         LD  LOW
         LIMIT X, HIGH
         ST  HELD_IN
         LD  V                         (* begins anew at each call *)
         ADD 1
         ST  V
         GT  4
         JMPC END
         RET
END:     LD  -1
         ST  HELD_IN
END_FUNCTION

FUNCTION HALF : INT
  VAR_INPUT X : INT; UP : BOOL; END_VAR
  VAR V : INT := 7; REST : INT; END_VAR
         LD  X
         MOD 2
         ST  REST
         LD  X
         GT  V
         JMPC END
         LD  V
         HELD_IN -5, 50
         ST  HALF
         LT  3
         RETC
         RET
END:     LD  X
         DIV 2
         ST  HALF
         LD  UP
         RETCN
         LD  HALF
         ADD REST
         HELD_IN 0, 12000
         ST  HALF
END_FUNCTION

FUNCTION_BLOCK SUM
  VAR_INPUT  E : BOOL; BY : INT; END_VAR
  VAR_OUTPUT Q : BOOL; N : INT; END_VAR
  VAR_IN_OUT MOST : INT; END_VAR
  VAR V : INT := 11; END_VAR
         LD  E
         RETCN
         LD  BY
         HALF FALSE
         ADD N
         HELD_IN -1000, 1000
         ST  N
         GT  MOST
         JMPCN END
         LD  N
         ST  MOST
END:     LD  N
         GE  500
         ST  Q
         RETCN
         LD  V
         ST  N
END_FUNCTION_BLOCK

FUNCTION_BLOCK PAIR
  VAR_INPUT  A, B : INT; GO : BOOL; END_VAR
  VAR_OUTPUT V : INT; END_VAR
  VAR X, Y : SUM; BEST : INT; END_VAR
         LD  GO
         CALC X(E := TRUE, BY := A, MOST := BEST)
         LD  GO
         CALCN Y(E := TRUE, BY := B, MOST := BEST)
         LD  X.N
         ADD Y.N
         ADD BEST
         HELD_IN -3000, 3000
         ST  V
         LD  X.Q
         JMPC END
         RET
END:     LD  0
         ST  Y.BY
         CAL Y(MOST := X.BY)
END_FUNCTION_BLOCK

FUNCTION_BLOCK FOUR
  VAR_INPUT  W1, W2 : INT; END_VAR
  VAR_OUTPUT V, HALVED : INT; END_VAR
  VAR X, Y : PAIR; FLIP : BOOL; END_VAR
         LDN FLIP
         ST  FLIP
         CAL X(A := W1, B := W2, GO := FLIP)
         LD  FLIP
         CALCN Y(A := W2, B := W1, GO := FLIP, V => V)
         LD  X.V
         HALF FLIP
         ST  HALVED
END_FUNCTION_BLOCK

PROGRAM nested
  VAR
    P, V : FOUR;
    A AT %IW0 : INT;
    B AT %IW1 : INT;
    G AT %IX0.0 : BOOL;
    X AT %QW2 : INT;
  END_VAR
         CAL P(W1 := A, W2 := B, V => %QW0, HALVED => %QW1)
         LD  G
         CALCN V(W1 := P.V, W2 := 70, HALVED => X)
         LD  G
         JMPCN END
         LD  X
         HALF TRUE
         HALF G
         ST  %QW3
END:     LD  V.HALVED
         ST  %QW4
END_PROGRAM
