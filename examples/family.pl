% Who is whose grandparent, sibling or ancestor: facts and rules over them.
%
% Goals to try:
%   grandparent(ann, X)                a grandchild of ann
%   ancestor(X, fay)                   an ancestor of fay
%   parent(X, dan), parent(X, eva)     a parent that dan and eva share
%   grandparent(fay, X)                none: the answer is false

parent(ann, bob).
parent(ann, cleo).
parent(max, bob).
parent(bob, dan).
parent(bob, eva).
parent(cleo, fay).

grandparent(X, Z) :- parent(X, Y), parent(Y, Z).

ancestor(X, Y) :- parent(X, Y).
ancestor(X, Z) :- parent(X, Y), ancestor(Y, Z).
