(* A meter: it counts the pulses at %IX0.0, more of them than 32 bits hold, so TOTAL is a LINT.
   A place of %Q has 16 bits: TOTAL goes out in groups of four decimal digits, the lowest at %QW0, then %QW1 and %QW2,
   and all that is above at %QW3. So a Modbus client that reads the four in one request has
       TOTAL = QW0 + 10000 * (QW1 + 10000 * (QW2 + 10000 * QW3))
   as one scan released it. A group fits an INT, so no conversion overflows below 32,768,000,000,000,000. *)
VAR
  PULSE AT %IX0.0 : BOOL;
  EDGE  : R_TRIG;
  TOTAL : LINT := LINT#2147483646;
  REST  : LINT;
END_VAR
     CAL EDGE(CLK := PULSE)
     LD  EDGE.Q
     JMPCN SHOW
     LD  TOTAL
     ADD 1
     ST  TOTAL
SHOW:
     LD  TOTAL
     MOD 10000
     LINT_TO_DINT
     DINT_TO_INT
     ST  %QW0
     LD  TOTAL
     DIV 10000
     ST  REST
     MOD 10000
     LINT_TO_DINT
     DINT_TO_INT
     ST  %QW1
     LD  REST
     DIV 10000
     ST  REST
     MOD 10000
     LINT_TO_DINT
     DINT_TO_INT
     ST  %QW2
     LD  REST
     DIV 10000
     LINT_TO_DINT
     DINT_TO_INT
     ST  %QW3
