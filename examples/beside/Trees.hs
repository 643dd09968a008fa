{-# LANGUAGE BangPatterns #-}
-- Trees.hs N: the lines of nmgc_trees N. ghc -O2 -rtsopts Trees.hs; ./Trees 16 +RTS --nonmoving-gc
module Main (main) where

import Control.Monad (forM_)
import System.Environment (getArgs)

data Tree = Nil | Node !Tree !Tree

build :: Int -> Tree
build 0 = Node Nil Nil
build d = Node (build (d - 1)) (build (d - 1))
{-# NOINLINE build #-}

count :: Tree -> Int
count Nil = 0
count (Node l r) = 1 + count l + count r

-- the argument i keeps one tree from being shared by all rounds
sumOf :: Int -> Int -> Int
sumOf all' d = go 0 0
  where
    go !i !s | i == all' = s
             | otherwise = go (i + 1) (s + count (build (if i < 0 then 0 else d)))

main :: IO ()
main = do
  [word] <- getArgs
  let n = read word
  putStrLn ("stretch tree of depth " ++ show (n + 1) ++ "\t check: " ++ show (count (build (n + 1))))
  let !long = build n
  forM_ [4, 6 .. n] $ \d -> do
    let all' = 2 ^ (n - d + 4)
    putStrLn (show all' ++ "\t trees of depth " ++ show d ++ "\t check: " ++ show (sumOf all' d))
  putStrLn ("long lived tree of depth " ++ show n ++ "\t check: " ++ show (count long))
