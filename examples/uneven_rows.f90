! The sums of the rows of a triangle. Later rows are longer, so the blocks of rows get smaller: each of four nodes has 30 to 39
! of the 136 elements, where blocks of four rows would give one node 10 of them and another 58.
PROGRAM UNEVEN_ROWS
INTEGER, PARAMETER :: N = 16
INTEGER :: L(N,N), S(N), I, J
!HPF$ PROCESSORS LINE(NUMBER_OF_PROCESSORS())
!HPF$ DISTRIBUTE L(GEN_BLOCK(N/2,3,3,2),*) ONTO LINE
!HPF$ ALIGN S(I) WITH L(I,*)
FORALL (I = 1:N, J = 1:N, J <= I) L(I,J) = I*J
S = 0
DO J = 1, N
  S(J:N) = S(J:N) + L(J:N,J)
END DO
PRINT *, S
PRINT *, SUM(S), MAXVAL(L)
END PROGRAM UNEVEN_ROWS
