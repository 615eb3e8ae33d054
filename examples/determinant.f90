! A determinant by elimination without fractions (Bareiss): each division is exact. Columns are dealt out in turn, so that all
! nodes have work until the end.
PROGRAM DETERMINANT
  INTEGER, PARAMETER :: N = 6
  INTEGER :: A(N,N), I, J, K, PIVOT, LAST
!HPF$ DISTRIBUTE A(*,CYCLIC)
  FORALL (I = 1:N, J = 1:N) A(I,J) = MOD(3 * I + J * J, 7) - 2 + 5 * (1 - MIN(ABS(I - J), 1))
  LAST = 1
  DO K = 1, N - 1
    PIVOT = A(K,K)
    IF (PIVOT == 0) THEN
      PRINT *, 'no pivot in column', K
      STOP
    END IF
    FORALL (I = K+1:N, J = K+1:N) A(I,J) = (A(I,J) * PIVOT - A(I,K) * A(K,J)) / LAST
    A(K+1:N,K) = 0
    LAST = PIVOT
  END DO
  PRINT *, 'determinant', A(N,N)
  PRINT *, 'last column', A(:,N)
END PROGRAM DETERMINANT
