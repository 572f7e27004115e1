//! Walks over trees.

use crate::Result;

#[derive(Clone, Copy, Debug, PartialEq, Eq)]
pub enum TreeNodeRecursion {
    Continue,
    /// Goes on beside the node, not below it.
    Jump,
    Stop,
}

/// A tree, and whether a step changed it.
pub struct Transformed<T> {
    pub data: T,
    pub transformed: bool,
}

impl<T> Transformed<T> {
    pub fn yes(data: T) -> Transformed<T> {
        Transformed { data, transformed: true }
    }

    pub fn no(data: T) -> Transformed<T> {
        Transformed { data, transformed: false }
    }

    pub fn map_data<U>(self, f: impl FnOnce(T) -> Result<U>) -> Result<Transformed<U>> {
        Ok(Transformed { data: f(self.data)?, transformed: self.transformed })
    }
}

pub trait TransformedResult<T> {
    fn data(self) -> Result<T>;
}

impl<T> TransformedResult<T> for Result<Transformed<T>> {
    fn data(self) -> Result<T> {
        self.map(|transformed| transformed.data)
    }
}

pub trait TreeNodeRewriter {
    type Node;

    fn f_up(&mut self, node: Self::Node) -> Result<Transformed<Self::Node>>;
}

pub trait TreeNode: Sized {
    fn children(&self) -> Vec<&Self>;

    fn map_children(self, f: impl FnMut(Self) -> Result<Self>) -> Result<Self>;

    /// Parents before their children, children in order.
    fn apply<'n, F: FnMut(&'n Self) -> Result<TreeNodeRecursion>>(&'n self, mut f: F) -> Result<TreeNodeRecursion> {
        apply_to(self, &mut f)
    }

    fn exists<'n, F: FnMut(&'n Self) -> Result<bool>>(&'n self, mut f: F) -> Result<bool> {
        let found = self.apply(|node| match f(node)? {
            true => Ok(TreeNodeRecursion::Stop),
            false => Ok(TreeNodeRecursion::Continue),
        })?;
        Ok(found == TreeNodeRecursion::Stop)
    }

    /// Children before their parents; what `f` puts in a node's place is not walked again.
    fn transform_up<F: FnMut(Self) -> Result<Transformed<Self>>>(self, mut f: F) -> Result<Transformed<Self>> {
        transform_up_of(self, &mut f)
    }

    fn rewrite<R: TreeNodeRewriter<Node = Self>>(self, rewriter: &mut R) -> Result<Transformed<Self>> {
        self.transform_up(|node| rewriter.f_up(node))
    }
}

fn apply_to<'n, N: TreeNode, F>(node: &'n N, f: &mut F) -> Result<TreeNodeRecursion>
where
    F: FnMut(&'n N) -> Result<TreeNodeRecursion>,
{
    match f(node)? {
        TreeNodeRecursion::Stop => return Ok(TreeNodeRecursion::Stop),
        TreeNodeRecursion::Jump => return Ok(TreeNodeRecursion::Continue),
        TreeNodeRecursion::Continue => {}
    }
    for child in node.children() {
        if apply_to(child, f)? == TreeNodeRecursion::Stop {
            return Ok(TreeNodeRecursion::Stop);
        }
    }
    Ok(TreeNodeRecursion::Continue)
}

fn transform_up_of<N: TreeNode, F>(node: N, f: &mut F) -> Result<Transformed<N>>
where
    F: FnMut(N) -> Result<Transformed<N>>,
{
    let mut below = false;
    let node = node.map_children(|child| {
        let child = transform_up_of(child, f)?;
        below |= child.transformed;
        Ok(child.data)
    })?;
    let mut result = f(node)?;
    result.transformed |= below;
    Ok(result)
}
