"""The reasons of refusals and the kinds of faults in words, and the words of the language."""

# number: its name, what it means, and the sections of docs/LANGUAGE.md that have its rules
REASONS = {
    1: ("BadLine", "a line breaks a rule of lines, or a piece of it is no token", ["Lines and tokens"]),
    2: ("NotAStatement", "the statement isn't of any form", ["Statements", "Expressions"]),
    3: ("BadNest", "a statement stands where it may not, or END is missing", ["The nest"]),
    4: ("BadName", "a name isn't declared, is declared twice, or stands for what may not stand there", ["Names and constants"]),
    5: ("BadRank", "an expression isn't of the type or rank that its place asks", ["Types and ranks"]),
    6: ("BadDirective", "a directive isn't of its form, stands where it may not, or asks for a mapping that isn't one", ["Directives", "What is refused"]),
    7: ("BadSubscript", "a subscript isn't linear in one index, a reduction stands in a FORALL, or a header names its own index", ["Bodies of FORALL"]),
    8: ("BadIndependent", "a nest of INDEPENDENT loops has what may not stand in one", ["Nests of INDEPENDENT loops"]),
    9: ("BadArrangement", "an arrangement hasn't as many processors as there are nodes, or none fits the DISTRIBUTE", ["PROCESSORS and TEMPLATE", "DISTRIBUTE"]),
    10: ("Limit", "a limit is passed", ["Limits", "Names and constants", "What is refused"]),
    11: ("LeftOut", "a part of Fortran or HPF that this language leaves out", ["Statements"]),
    12: ("BadConstant", "an expression that must be constant isn't, or divides by zero", ["Names and constants"]),
}
FIXED_SECTIONS = {1: ["The fixed source form", "Lines and tokens"]}  # in place of these, of a text in fixed form
FAULTS = {
    "Bounds": ("a subscript is out of its bounds", ["Faults"]),
    "DivZero": ("something is divided by zero", ["Faults", "Operators and their values"]),
    "Shape": ("two sections, or a section and a mask, have other extents", ["Faults", "Array expressions"]),
    "ZeroStride": ("a step or a stride is 0", ["Faults"]),
    "NotOneToOne": ("a FORALL assigns one element at two values of its indices", ["Faults"]),
    "SpaceLimit": ("an array statement or a nest of INDEPENDENT loops has more tuples, or an index or a subscript is larger, than the limits allow", ["Faults"]),
    "Interfere": ("two iterations of a nest of INDEPENDENT loops use one object, and one of them assigns it", ["What is checked at the entry of a nest"]),
}
KEYWORDS = """CONTINUE CYCLE DO ELSE ELSEIF ELSEWHERE END ENDDO ENDFORALL ENDIF ENDWHERE EXIT FORALL IF IMPLICIT INTEGER NONE PARAMETER PRINT PROGRAM
STOP THEN WHERE WHILE""".split()
LEFT_OUT = """ALLOCATABLE ALLOCATE BACKSPACE CALL CASE CHARACTER CLOSE COMMON COMPLEX CONTAINS DATA DEALLOCATE DIMENSION DOUBLE ENTRY EQUIVALENCE
EXTERNAL FORMAT FUNCTION GO GOTO INCLUDE INQUIRE INTENT INTERFACE INTRINSIC LOGICAL MODULE NAMELIST NULLIFY OPEN OPTIONAL POINTER PRIVATE
PUBLIC READ REAL RECURSIVE RETURN REWIND SAVE SELECT SUBROUTINE TARGET TYPE USE WRITE""".split()
INTRINSICS = """ABS ALL ANY COUNT CSHIFT DIM IAND IEOR IOR LBOUND MAX MAXVAL MIN MINVAL MOD MODULO NOT NUMBER_OF_PROCESSORS PROCESSORS_SHAPE PRODUCT SIGN
SIZE SUM SUM_PREFIX TRANSPOSE UBOUND""".split()
RESERVED = set(KEYWORDS + LEFT_OUT + INTRINSICS)
REDUCTIONS = "SUM PRODUCT MAXVAL MINVAL COUNT ANY ALL".split()
# the other intrinsic procedures of Fortran 95 and HPF 2.0 that a program may call: here they are names that nobody declared
OTHER_INTRINSICS = set("""ACHAR ADJUSTL ADJUSTR AIMAG AINT ALLOCATED ANINT ASSOCIATED ATAN ATAN2 BIT_SIZE BTEST CEILING CHAR CMPLX CONJG COS COSH
CPU_TIME DATE_AND_TIME DBLE DIGITS DOT_PRODUCT EOSHIFT EXP FLOOR HUGE IACHAR IBCLR IBITS IBSET ICHAR ILEN INDEX INT ISHFT ISHFTC KIND
LEN LOG LOG10 MATMUL MAXLOC MERGE MINLOC MVBITS NINT PACK POPCNT RANDOM_NUMBER REPEAT RESHAPE SCAN SHAPE SIN SPREAD SQRT SUM_SCATTER
SYSTEM_CLOCK TAN TINY TRIM UNPACK VERIFY""".split())
DIRECTIVES = "PROCESSORS TEMPLATE DYNAMIC DISTRIBUTE REDISTRIBUTE ALIGN INDEPENDENT".split()
PASSED = "SEQUENCE NO INHERIT RANGE SHADOW ON RESIDENT TASK_REGION END".split()
WORDS_INSIDE = "BLOCK CYCLIC ONTO WITH NEW REDUCTION".split()
ARGUMENTS = {**{word: 1 for word in ("ABS", "NOT")}, **{word: 2 for word in ("DIM", "IAND", "IEOR", "IOR", "MOD", "MODULO", "SIGN")}}
