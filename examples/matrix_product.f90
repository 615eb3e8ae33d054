! The product of two matrices, and the powers of the first modulo 1000 by squaring.
PROGRAM MATRIX_PRODUCT
INTEGER, PARAMETER :: N = 3, EXPONENT = 1000
INTEGER :: A(N,N), B(N,N), C(N,N), POWER(N,N), I, J, E
!HPF$ PROCESSORS P(NUMBER_OF_PROCESSORS())
!HPF$ DISTRIBUTE (BLOCK,*) ONTO P :: A, C
FORALL (I = 1:N, J = 1:N)
  A(I,J) = 10 * I + J
  B(I,J) = I - J
END FORALL
DO J = 1, N
  DO I = 1, N
    C(I,J) = SUM(A(I,:) * B(:,J))
  END DO
END DO
PRINT *, C
POWER = 0
FORALL (I = 1:N) POWER(I,I) = 1
DO E = 12, 0, -1
  DO J = 1, N
    DO I = 1, N
      C(I,J) = MOD(SUM(POWER(I,:) * POWER(:,J)), 1000)
    END DO
  END DO
  POWER = C
  IF (MOD(EXPONENT / 2**E, 2) == 0) CYCLE
  DO J = 1, N
    DO I = 1, N
      C(I,J) = MOD(SUM(POWER(I,:) * A(:,J)), 1000)
    END DO
  END DO
  POWER = C
END DO
PRINT *, 'power', EXPONENT, 'ends in'
DO I = 1, N
  PRINT *, POWER(I,:)
END DO
END PROGRAM MATRIX_PRODUCT
