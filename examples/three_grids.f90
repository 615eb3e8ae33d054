! A fine grid in blocks, and two coarser ones: each element of a coarse grid lies with the second of two of the next finer one.
! The weights aren't mapped, so each node has all of them.
PROGRAM THREE_GRIDS
INTEGER, PARAMETER :: N = 16
INTEGER :: FINE(N), COARSE(N/2), COARSEST(N/4), WEIGHT(3) = 2, I
!HPF$ DISTRIBUTE FINE(BLOCK)
!HPF$ ALIGN COARSE(I) WITH FINE(2*I)
!HPF$ ALIGN COARSEST(I) WITH COARSE(2*I)
FORALL (I = 1:N) FINE(I) = I * I
WEIGHT(2) = 4
FORALL (I = 1:N/2-1) COARSE(I) = (WEIGHT(1) * FINE(2*I-1) + WEIGHT(2) * FINE(2*I) + WEIGHT(3) * FINE(2*I+1)) / 8
COARSEST = COARSE(2:N/2:2)
PRINT *, COARSE
PRINT *, COARSEST
END PROGRAM THREE_GRIDS
