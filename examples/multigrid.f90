! Poisson's equation on a square in rounds over two grids: coarse points lie with fine ones, E(I,J) with U(2*I,2*J).
! See `hpf map --grid 2x2`: smoothing, restriction and interpolation send only points at the sides of blocks, in both dimensions.
PROGRAM MULTIGRID
  INTEGER, PARAMETER :: N = 16, M = N / 2
  INTEGER :: U(0:N,0:N) = 0, F(0:N,0:N) = 0, R(0:N,0:N) = 0, E(0:M,0:M) = 0, G(0:M,0:M) = 0
  INTEGER :: I, J, ROUND, SWEEP
!HPF$ DISTRIBUTE U(BLOCK,BLOCK)
!HPF$ ALIGN (I,J) WITH U(I,J) :: F, R
!HPF$ ALIGN (I,J) WITH U(2*I,2*J) :: E, G
  F(4,5) = 100000000
  F(11,12) = -50000000
  DO ROUND = 1, 4
    DO SWEEP = 1, 2
      FORALL (I = 1:N-1, J = 1:N-1) R(I,J) = F(I,J) - 4 * U(I,J) + U(I-1,J) + U(I+1,J) + U(I,J-1) + U(I,J+1)
      U = U + R / 5
    END DO
    FORALL (I = 1:N-1, J = 1:N-1) R(I,J) = F(I,J) - 4 * U(I,J) + U(I-1,J) + U(I+1,J) + U(I,J-1) + U(I,J+1)
    PRINT *, 'round', ROUND, 'off by at most', MAXVAL(ABS(R))
    FORALL (I = 1:M-1, J = 1:M-1)
      G(I,J) = (4 * R(2*I,2*J) + 2 * (R(2*I-1,2*J) + R(2*I+1,2*J) + R(2*I,2*J-1) + R(2*I,2*J+1)) &
             + R(2*I-1,2*J-1) + R(2*I+1,2*J-1) + R(2*I-1,2*J+1) + R(2*I+1,2*J+1)) / 4
    END FORALL
    E = 0
    DO SWEEP = 1, 8
      FORALL (I = 1:M-1, J = 1:M-1, MOD(I+J,2) == 0) E(I,J) = (G(I,J) + E(I-1,J) + E(I+1,J) + E(I,J-1) + E(I,J+1)) / 4
      FORALL (I = 1:M-1, J = 1:M-1, MOD(I+J,2) == 1) E(I,J) = (G(I,J) + E(I-1,J) + E(I+1,J) + E(I,J-1) + E(I,J+1)) / 4
    END DO
    FORALL (I = 1:M-1, J = 1:M-1) U(2*I,2*J) = U(2*I,2*J) + E(I,J)
    FORALL (I = 0:M-1, J = 1:M-1) U(2*I+1,2*J) = U(2*I+1,2*J) + (E(I,J) + E(I+1,J)) / 2
    FORALL (I = 1:M-1, J = 0:M-1) U(2*I,2*J+1) = U(2*I,2*J+1) + (E(I,J) + E(I,J+1)) / 2
    FORALL (I = 0:M-1, J = 0:M-1) U(2*I+1,2*J+1) = U(2*I+1,2*J+1) + (E(I,J) + E(I+1,J) + E(I,J+1) + E(I+1,J+1)) / 4
  END DO
  PRINT *, U(:,M)
END PROGRAM MULTIGRID
