(* The drive of a belt, by its control word and its status word (IEC 61800-7-201): it's led from state to state, and a
   fault is acknowledged by hand. *)
VAR_GLOBAL
  RUN     AT %IX0.0 : BOOL;            (* the belt shall run *)
  QUIT    AT %IX0.1 : BOOL;            (* acknowledges a fault *)
  STATUS  AT %IW0   : WORD;            (* what the drive says *)
  WANTED  AT %IW1   : INT;             (* turns a minute *)
  FAULT   AT %QX0.0 : BOOL;
  RUNS    AT %QX0.1 : BOOL;
  CONTROL AT %QW0   : WORD;            (* what the drive is told *)
  SPEED   AT %QW1   : INT;
  STATE   : WORD;                      (* the bits of the status that tell the state *)
END_VAR

         LD   STATUS
         AND  16#006F
         ST   STATE
         EQ   16#0027                  (* operation enabled *)
         ST   RUNS
         LD   STATUS
         AND  16#0008
         NE   0
         ST   FAULT
         JMPC FAULTY
         LDN  RUN
         JMPC HALT
         LD   STATE
         EQ   16#0021                  (* ready to switch on *)
         JMPC ON
         LD   STATE
         EQ   16#0023                  (* switched on *)
         OR   RUNS
         JMPC ENABLE

HALT:    LD   WORD#16#0006             (* shutdown, which also leads out of "switch on disabled" *)
         ST   CONTROL
         JMP  LEAD
ON:      LD   WORD#16#0007
         ST   CONTROL
         JMP  LEAD
ENABLE:  LD   WORD#16#000F
         ST   CONTROL
         JMP  LEAD
FAULTY:  LD   WORD#0
         ST   CONTROL
         LDN  QUIT
         JMPC LEAD
         LD   CONTROL
         OR   16#0080                  (* fault reset *)
         ST   CONTROL

LEAD:    LD   RUNS
         JMPC GO
         LD   0
         ST   SPEED
         RET
GO:      LD   WANTED
         ST   SPEED
