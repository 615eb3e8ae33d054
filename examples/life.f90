! Conway's game of life: a glider, which after four generations is one cell further down and to the right.
PROGRAM LIFE
INTEGER, PARAMETER :: N = 10
INTEGER :: CELL(N,N) = 0, ROUND(N,N) = 0, I, J, GENERATION
!HPF$ DISTRIBUTE (BLOCK,BLOCK) :: CELL, ROUND
CELL(2,3) = 1; CELL(3,4) = 1; CELL(4,2:4) = 1
DO GENERATION = 1, 4
  FORALL (I = 2:N-1, J = 2:N-1)
    ROUND(I,J) = CELL(I-1,J-1) + CELL(I-1,J) + CELL(I-1,J+1) + CELL(I,J-1) &
               + CELL(I,J+1) + CELL(I+1,J-1) + CELL(I+1,J) + CELL(I+1,J+1)
  END FORALL
  WHERE (ROUND == 3)
    CELL = 1
  ELSEWHERE
    CELL = CELL * (1 - MIN(ABS(ROUND - 2), 1))
  END WHERE
END DO
PRINT *, 'living', SUM(CELL), 'of them in the first five rows', COUNT(CELL(:5,:) == 1)
DO I = 1, N
  PRINT *, CELL(I,:)
END DO
END PROGRAM LIFE
