! A plate with its upper edge at a million, relaxed by Jacobi's rule in U and by the red-black rule in V, which comes further.
! See `hpf map --grid 2x2`: each node has a square of 9 by 9, and only the points at its sides are sent, along both dimensions.
PROGRAM RED_BLACK
  INTEGER, PARAMETER :: N = 17
  INTEGER :: U(0:N,0:N) = 0, V(0:N,0:N) = 0, OFF(0:N,0:N) = 0, I, J, SWEEP
!HPF$ DISTRIBUTE U(BLOCK,BLOCK)
!HPF$ ALIGN (:,:) WITH U(:,:) :: V, OFF
  U(0,:) = 1000000
  V(0,:) = 1000000
  DO SWEEP = 1, 60
    FORALL (I = 1:N-1, J = 1:N-1) U(I,J) = (U(I-1,J) + U(I+1,J) + U(I,J-1) + U(I,J+1)) / 4
    FORALL (I = 1:N-1, J = 1:N-1, MOD(I+J,2) == 0) V(I,J) = (V(I-1,J) + V(I+1,J) + V(I,J-1) + V(I,J+1)) / 4
    FORALL (I = 1:N-1, J = 1:N-1, MOD(I+J,2) == 1) V(I,J) = (V(I-1,J) + V(I+1,J) + V(I,J-1) + V(I,J+1)) / 4
    IF (MOD(SWEEP,20) /= 0) CYCLE
    FORALL (I = 1:N-1, J = 1:N-1) OFF(I,J) = 4 * U(I,J) - U(I-1,J) - U(I+1,J) - U(I,J-1) - U(I,J+1)
    PRINT *, 'sweep', SWEEP, 'Jacobi is off by', SUM(ABS(OFF)), 'in all'
    FORALL (I = 1:N-1, J = 1:N-1) OFF(I,J) = 4 * V(I,J) - V(I-1,J) - V(I+1,J) - V(I,J-1) - V(I,J+1)
    PRINT *, 'sweep', SWEEP, 'red-black by', SUM(ABS(OFF))
  END DO
  PRINT *, U(:,N/2)
  PRINT *, V(:,N/2)
END PROGRAM RED_BLACK
