! A wave on a ring: the string has no ends, so that each point has two neighbours. Heights are in thousandths.
PROGRAM WAVE
INTEGER, PARAMETER :: N = 24, ROUNDS = 4
INTEGER :: BEFORE(N), HERE(N), AFTER(N), LEFT(N), RIGHT(N), I, T
!HPF$ DISTRIBUTE (BLOCK) :: BEFORE, HERE, AFTER, LEFT, RIGHT
FORALL (I = 1:N, ABS(I - 7) < 4) HERE(I) = 1000 - 60 * (I - 7)**2
BEFORE = CSHIFT(HERE, 1)
DO T = 1, N * ROUNDS
  LEFT = CSHIFT(HERE, -1)
  RIGHT = CSHIFT(HERE, 1)
  AFTER = LEFT + RIGHT - BEFORE
  BEFORE = HERE
  HERE = AFTER
  IF (MOD(T, 8) == 0 .AND. T <= N) PRINT *, T, HERE
END DO
PRINT *, 'after', ROUNDS, 'rounds', HERE
END PROGRAM WAVE
