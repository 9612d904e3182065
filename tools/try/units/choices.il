(* LIMIT, SEL and MUX of each type, in functions and blocks, with numbers that there aren't. *)
FUNCTION WHICH : DINT
  VAR_INPUT N : INT; BIG : BOOL; END_VAR
  VAR A : DINT; END_VAR
         LD  N
         MUX 5, 100000, DINT#-7, A
         ST  A
         LD  BIG
         SEL A, 2000000
         ST  WHICH
END_FUNCTION

FUNCTION MASK : WORD
  VAR_INPUT N : INT; END_VAR
         LD  N
         MUX WORD#16#00FF, 16#0F0F, 3
         ROL 4
         ST  MASK
END_FUNCTION

FUNCTION_BLOCK CHOOSER
  VAR CONSTANT LOW : REAL := -12.5; LONG : TIME := T#1m; FLAG : BOOL := TRUE; END_VAR
  VAR_INPUT  N : INT; B : BOOL; R1, R2 : REAL; T1 : TIME; END_VAR
  VAR_OUTPUT V : REAL; T : TIME; D : DINT; W : WORD; Q : BOOL; L : LINT; X : DWORD; END_VAR
         LD  LOW
         LIMIT R1, 1.0E6
         ST  V
         LD  B
         SEL V, R2
         ST  V
         LD  B
         SEL T1, LONG
         ST  T
         LD  T#0s
         LIMIT T, T#90s
         ST  T
         LD  N
         MUX T, T1, T#5s, LONG
         ST  T
         LD  N
         WHICH B
         ST  D
         LD  N
         MASK
         XOR W
         ST  W
         LD  N
         MUX B, FALSE, FLAG, 1, Q, TRUE
         ST  Q
         LD  B
         SEL LINT#-5, 7
         ADD L
         ST  L
         LD  LINT#-300
         LIMIT L, LINT#4000
         ST  L
         LD  N
         MUX 1, 2, DWORD#16#80000000, 4, 5, 6, 7, 8
         ST  X
END_FUNCTION_BLOCK

PROGRAM choices
  VAR
    C1, C2 : CHOOSER;
    N AT %IW0 : INT;
    B AT %IX0.0 : BOOL;
    X AT %ID2 : REAL;
    SHOWN AT %QD0 : REAL;
    T AT %QD2 : TIME;
    D AT %QD4 : DINT;
    W AT %QW6 : WORD;
    Q AT %QX0.0 : BOOL;
    Z AT %QD8 : DWORD;
    SMALL : INT;
  END_VAR
         LD  N
         MOD 11
         ST  SMALL
         CAL C1(N := N, B := B, R1 := X, R2 := 3.5, T1 := T#2s, V => SHOWN, D => D, W => W)
         CAL C2(N := SMALL, R1 := C1.V, T1 := C1.T, T => T, Q => Q, X => Z)
         LDN B
         CALC C2(B := Q)
END_PROGRAM
