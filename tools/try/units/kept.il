(* All standard blocks in a block, of which there are one that is retained, one whose parts are in part, and one of which
   nothing is; counts in each type; a function within. *)
FUNCTION UP : LINT
  VAR_INPUT X : LINT; BY : DINT; END_VAR
         LD  BY
         DINT_TO_LINT
         ADD X
         MOD LINT#5000000000
         ST  UP
END_FUNCTION

FUNCTION_BLOCK ALL
  VAR_INPUT  A, B : BOOL; PT : TIME := T#300ms; PV : INT := 3; END_VAR
  VAR_OUTPUT N : INT; Q : BOOL; END_VAR
  VAR
    K1 : SR; K2 : RS; E1 : R_TRIG; E2 : F_TRIG; N1 : CTU; N2 : CTD; T1 : TP; T2 : TOF;
  END_VAR
  VAR RETAIN N3 : CTUD; T3 : TON; BITS : WORD; LONG : LINT; AMOUNT : REAL := 0.5; PASSED : TIME; END_VAR
         CAL K1(S1 := A, R := B)
         CAL K2(S := A, R1 := B)
         CAL E1(CLK := A)
         CAL E2(CLK := B)
         CAL T1(IN := A, PT := PT)
         CAL T2(IN := B, PT := PT)
         CAL T3(IN := A, PT := PT, ET => PASSED)
         CAL N1(CU := A, R := T3.Q, PV := PV)
         CAL N2(CD := B, LD := E1.Q, PV := PV)
         CAL N3(CU := E1.Q, CD := E2.Q, LD := N1.Q, PV := PV)
         LD  K1.Q1
         XOR K2.Q1
         XOR( T1.Q
         AND T2.Q
         )
         XOR N3.QU
         XOR N3.QD
         ST  Q
         LD  N3.CV
         ADD N1.CV
         SUB N2.CV
         ST  N
         LD  Q
         SEL WORD#1, WORD#8
         XOR BITS
         ROR 3
         ST  BITS
         LD  LONG
         UP  123456789
         ST  LONG
         LD  AMOUNT
         MUL 1.0625
         MIN 1.0E9
         ST  AMOUNT
END_FUNCTION_BLOCK

FUNCTION_BLOCK TWO
  VAR_INPUT RETAIN A : BOOL; END_VAR
  VAR_INPUT B : BOOL; END_VAR
  VAR_OUTPUT NON_RETAIN N : INT; END_VAR
  VAR RETAIN FIRST : ALL; END_VAR
  VAR SECOND : ALL; END_VAR
         CAL FIRST(A := A, B := B)
         CAL SECOND(A := B, B := A, PT := FIRST.PT)
         LD  FIRST.N
         ADD SECOND.N
         ST  N
END_FUNCTION_BLOCK

PROGRAM kept
  VAR RETAIN P : TWO; ALL_DAYS AT %MD4 : DINT := 7; LAST AT %QW9 : INT; END_VAR
  VAR Q : TWO; A AT %IX0.0 : BOOL; B AT %IX0.1 : BOOL; N AT %MW7 : INT; END_VAR
         CAL P(A := A, B := B, N => %QW0)
         LD  A
         CALC Q(A := B)
         LD  B
         CALCN Q(B := A, N => %QW1)
         LD  ALL_DAYS
         ADD 1
         ST  ALL_DAYS
         ST  %QD2
         LD  N
         ADD 1
         ST  N
         ST  %QW4
         LD  P.N
         SUB Q.N
         ST  LAST
END_PROGRAM
