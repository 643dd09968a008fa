{-# LANGUAGE MagicHash, UnboxedTuples, BangPatterns #-}
-- The load of a large heap in Haskell: Large KIND MIB. Arrays of 62 references, or lists of 1,024 cells, in directories of
-- 4,000. MIB counts 512 bytes an array and 32 bytes a cell, as on the other heap. The load fills, and then a quarter as many
-- objects take the places of the last directory's.
module Main where

import Control.Monad
import Data.IORef
import GHC.Exts
import GHC.IO (IO (..))
import GHC.Stats
import System.Environment
import System.Mem

data Row = Row (MutableArray# RealWorld Any)
data Small = Small (SmallMutableArray# RealWorld Any)
data Cell = Nil | Cell Int Cell

newRow :: Int -> Any -> IO Row
newRow (I# n) x = IO $ \s -> case newArray# n x s of (# t, a #) -> (# t, Row a #)

put :: Row -> Int -> Any -> IO ()
put (Row a) (I# i) x = IO $ \s -> case writeArray# a i x s of t -> (# t, () #)

object :: String -> Any -> Int -> IO Any
object "arrays" five _ = do
  it <- IO $ \s -> case newSmallArray# 62# five s of (# t, a #) -> (# t, Small a #)
  return $! unsafeCoerce# it
object _ _ k = do
  let list :: Int -> Cell -> Cell
      list 0 !cells = cells
      list m !cells = list (m - 1) (Cell k cells)
      !made = list 1024 Nil
  return $! unsafeCoerce# made

main :: IO ()
main = do
  [kind, size] <- getArgs
  let count = read size * 1048576 `div` (if kind == "cells" then 32768 else 512)
      five = unsafeCoerce# (5 :: Int) :: Any
  directories <- newIORef []
  forM_ [0 .. count - 1] $ \i -> do
    when (i `mod` 4000 == 0) $ newRow 4000 five >>= \row -> modifyIORef' directories (row :)
    (row : _) <- readIORef directories
    object kind five i >>= put row (i `mod` 4000)
  forM_ [0 .. count `div` 4 - 1] $ \i -> do
    (row : _) <- readIORef directories
    object kind five i >>= put row (i `mod` min 4000 count)
  performMajorGC
  stats <- getRTSStats
  rows <- readIORef directories
  putStrLn ("live " ++ show (gcdetails_live_bytes (gc stats)) ++ " rows " ++ show (length rows))
