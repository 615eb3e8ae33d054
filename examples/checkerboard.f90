! A plate relaxed in place, the points of one colour of a checkerboard and then those of the other.
! The condition is known at the entry, since it has no array and no variable that the nest assigns:
! only points of one colour are assigned, and only their neighbours of the other one are read.
PROGRAM CHECKERBOARD
INTEGER, PARAMETER :: N = 7
INTEGER :: U(N,N) = 0, I, J, COLOUR, SWEEP
!HPF$ DISTRIBUTE U(BLOCK,*)
U(1,:) = 1000000
DO SWEEP = 1, 4
  DO COLOUR = 0, 1
!HPF$ INDEPENDENT
    DO J = 2, N - 1
!HPF$ INDEPENDENT
      DO I = 2, N - 1
        IF (MOD(I + J, 2) == COLOUR) U(I,J) = (U(I-1,J) + U(I+1,J) + U(I,J-1) + U(I,J+1)) / 4
      END DO
    END DO
  END DO
  PRINT *, 'sweep', SWEEP, U(2:N-1,(N+1)/2)
END DO
END PROGRAM CHECKERBOARD
