! A triangular system, solved column by column. The columns are dealt out cyclically, so that each node has long and short ones, and
! each element of the solution lies with its column.
PROGRAM TRIANGLE
INTEGER, PARAMETER :: N = 10
INTEGER :: L(N,N), X(N), BACKWARD(N), I, J
!HPF$ PROCESSORS LINE(NUMBER_OF_PROCESSORS())
!HPF$ DISTRIBUTE L(*,CYCLIC) ONTO LINE
!HPF$ ALIGN X(J) WITH L(*,J)
!HPF$ ALIGN BACKWARD(J) WITH L(1,N+1-J)
FORALL (I = 1:N, J = 1:N, I >= J) L(I,J) = I - J + 1
X = 1
DO J = 1, N
  DO I = J + 1, N
    X(I) = X(I) - L(I,J) * X(J)
  END DO
END DO
BACKWARD = X(N:1:-1)
PRINT *, X
PRINT *, BACKWARD
END PROGRAM TRIANGLE
