{-# LANGUAGE BangPatterns #-}
-- List.hs N: the load of list.go. ghc -O2 -threaded -rtsopts List.hs -o list_hs; ./list_hs 6400 +RTS --nonmoving-gc -N2 -s
module Main (main) where

import Data.Array.IO (IOArray, getElems, newArray, writeArray)
import Data.List (foldl')
import System.Environment (getArgs)

data Cell = Nil | Cell {-# UNPACK #-} !Int !Cell

made :: Int -> Cell
made number = go (1024 :: Int) Nil
  where
    go 0 !list = list
    go n !list = go (n - 1) (Cell number list)
{-# NOINLINE made #-}

data Sums = Sums !Int !Int

add :: Sums -> Cell -> Sums
add sums Nil = sums
add (Sums cells total) (Cell number rest) = add (Sums (cells + 1) (total + number)) rest

main :: IO ()
main = do
  [word] <- getArgs
  let kept = read word :: Int
  lists <- newArray (0, kept - 1) Nil :: IO (IOArray Int Cell)
  let fill :: Int -> IO ()
      fill i
        | i == 3 * kept = return ()
        | otherwise = do
            let !list = made i
            writeArray lists (i `mod` kept) list
            fill (i + 1)
  fill 0
  Sums cells total <- foldl' add (Sums 0 0) <$> getElems lists
  putStrLn ("cells " ++ show cells ++ "\nsum " ++ show total)
