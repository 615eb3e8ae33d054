! Heat in a plate of 8 by 8 points, in thousandths of a degree: the rim is kept, and
! each inner point becomes the mean of its four neighbours, until no point changes.
PROGRAM HEAT
INTEGER, PARAMETER :: N = 8
INTEGER :: T(N,N) = 0, OLD(N,N), STEP, CHANGE
!HPF$ DISTRIBUTE T(BLOCK,*)
!HPF$ ALIGN OLD(:,:) WITH T(:,:)
T(1,:) = 100000
T(:,N) = 50000
DO STEP = 1, 1000
  OLD = T
  T(2:N-1,2:N-1) = (OLD(1:N-2,2:N-1) + OLD(3:N,2:N-1) + OLD(2:N-1,1:N-2) + OLD(2:N-1,3:N)) / 4
  CHANGE = MAXVAL(ABS(T - OLD))
  IF (CHANGE == 0) EXIT
END DO
PRINT *, 'steps', STEP
DO STEP = 1, N
  PRINT *, T(STEP,:)
END DO
END PROGRAM HEAT
