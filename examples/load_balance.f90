! The rows of a triangle in blocks of about as many elements: SUM_PREFIX says how many there are up to each row,
! and a row goes to the node in whose share its middle lies. The sizes that are printed are those of uneven_rows.
PROGRAM LOAD_BALANCE
INTEGER, PARAMETER :: N = 16, NODES = 4
INTEGER :: COST(N), UPTO(N), LAST(0:NODES), SIZES(NODES), SHARES(NODES), I, K
!HPF$ DISTRIBUTE (BLOCK) :: COST, UPTO
FORALL (I = 1:N) COST(I) = I
UPTO = SUM_PREFIX(COST)
DO K = 1, NODES
  LAST(K) = COUNT(2 * UPTO - COST <= 2 * UPTO(N) * K / NODES)
  SHARES(K) = SUM(COST(LAST(K-1)+1:LAST(K)))
END DO
SIZES = LAST(1:NODES) - LAST(0:NODES-1)
PRINT *, 'elements up to each row', UPTO
PRINT *, 'GEN_BLOCK', SIZES
PRINT *, 'elements of each node', SHARES
END PROGRAM LOAD_BALANCE
