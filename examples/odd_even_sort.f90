! Odd-even transposition sort: neighbours are put in order, from element 1 on in odd phases and from element 2 on in even ones.
! See `hpf map --grid 4`: in blocks of 4 an odd phase sends no element, and an even one sends one each way between two blocks.
PROGRAM ODD_EVEN_SORT
  INTEGER, PARAMETER :: N = 16
  INTEGER :: V(N) = 0, OLD(N) = 0, F, I, PHASE, LAST
!HPF$ DISTRIBUTE V(BLOCK)
!HPF$ ALIGN OLD(I) WITH V(I)
  FORALL (I = 1:N) V(I) = MOD(37 * I * I + 11 * I, 53)
  PRINT *, V
  LAST = 0
  DO PHASE = 1, N
    F = 2 - MOD(PHASE, 2)
    OLD = V
    V(F:N-1:2) = MIN(OLD(F:N-1:2), OLD(F+1:N:2))
    V(F+1:N:2) = MAX(OLD(F:N-1:2), OLD(F+1:N:2))
    IF (ANY(V /= OLD)) LAST = PHASE
  END DO
  PRINT *, V
  PRINT *, 'in order after phase', LAST, 'pairs out of order:', COUNT(V(1:N-1) > V(2:N))
END PROGRAM ODD_EVEN_SORT
