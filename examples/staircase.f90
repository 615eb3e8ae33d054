INTEGER S(8)
!HPF$ DISTRIBUTE S(BLOCK)
S(1:8) = 1
S(2:8) = S(1:7) + 1
S(3:8) = S(2:7) + 1
S(4:8) = S(3:7) + 1
PRINT *, S(1)
PRINT *, S(2)
PRINT *, S(3)
PRINT *, S(4)
PRINT *, S(8)
END
