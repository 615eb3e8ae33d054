! The product of two matrices in blocks of rows. The second is transposed, so that its columns lie in blocks of rows,
! too, and goes round: in each step a row of the first meets one column of the second, and then the columns move on.
PROGRAM TRANSPOSED_PRODUCT
INTEGER, PARAMETER :: N = 6
INTEGER :: A(N,N), B(N,N), C(N,N), COLUMNS(N,N), S(N), I, J, K, STEP
!HPF$ DISTRIBUTE (BLOCK,*) :: A, B, C, COLUMNS
!HPF$ DISTRIBUTE S(BLOCK)
FORALL (I = 1:N, J = 1:N)
  A(I,J) = I + J
  B(I,J) = I - 2 * J
END FORALL
COLUMNS = TRANSPOSE(B)
DO STEP = 0, N - 1
  S = 0
  DO K = 1, N
    S = S + A(:,K) * COLUMNS(:,K)
  END DO
  DO I = 1, N
    C(I, 1 + MOD(I - 1 + STEP, N)) = S(I)
  END DO
  COLUMNS = CSHIFT(COLUMNS, 1)
END DO
DO I = 1, N
  PRINT *, C(I,:)
END DO
END PROGRAM TRANSPOSED_PRODUCT
