//! Plans, payoffs, amounts and tests as typed trees (document 000, figure 2.1 and section 2.3.2).

/// The d of `L` and `W`: "d is 0 to 600, or an open setting `P0` to `P7`".
#[derive(Clone, Copy, Debug, PartialEq, Eq)]
pub enum Delay {
    Months(i64),
    Setting(usize),
}

/// When a plan's `O` is read: "i months from the node's month (-60 to 600)".
#[derive(Clone, Copy, Debug, PartialEq, Eq)]
pub struct Offset(pub i64);

/// A payoff's month: "a number (-60 to 19,200) followed by up to 31 settings with `+`, lowest first".
#[derive(Clone, Debug, PartialEq, Eq)]
pub struct Month {
    pub number: i64,
    pub settings: Vec<usize>,
}

impl Month {
    /// A month without open settings.
    pub fn of(number: i64) -> Month {
        Month {
            number,
            settings: Vec::new(),
        }
    }
}

/// Amounts; `At` says when an index is read (an [`Offset`] in plans, a [`Month`] in payoffs).
#[derive(Clone, Debug, PartialEq, Eq)]
pub enum Amount<At> {
    /// `N,n` a number.
    Number(i64),
    /// `O,label,i` an index.
    Index { label: usize, at: At },
    /// `A` sum.
    Sum(Box<Amount<At>>, Box<Amount<At>>),
    /// `U` difference.
    Difference(Box<Amount<At>>, Box<Amount<At>>),
    /// `K` product.
    Product(Box<Amount<At>>, Box<Amount<At>>),
    /// `Q,n,amount` the amount divided by n, rounded down.
    Quotient(i64, Box<Amount<At>>),
    /// `I,test,amount,amount` the first if the test holds, else the second.
    Choice(Box<Test<At>>, Box<Amount<At>>, Box<Amount<At>>),
}

/// Tests.
#[derive(Clone, Debug, PartialEq, Eq)]
pub enum Test<At> {
    /// `G,amount,amount` the first is less than the second.
    Less(Amount<At>, Amount<At>),
    /// `E,..` equal.
    Equal(Amount<At>, Amount<At>),
    /// `Y,test,test` and.
    And(Box<Test<At>>, Box<Test<At>>),
    /// `V,test,test` or.
    Or(Box<Test<At>>, Box<Test<At>>),
    /// `R,test` not.
    Not(Box<Test<At>>),
}

/// Plans.
#[derive(Clone, Debug, PartialEq, Eq)]
pub enum Plan {
    /// `Z` pays nothing.
    Nothing,
    /// `T,p,q` in its own month, party p pays party q one penny.
    Transfer { from: i64, to: i64 },
    /// `S,amount,plan` every payment of the plan times the amount.
    Scale(Amount<Offset>, Box<Plan>),
    /// `L,d,plan` the plan, d months later.
    Later(Delay, Box<Plan>),
    /// `B,plan,plan` both.
    Both(Box<Plan>, Box<Plan>),
    /// `W,d,test,plan,plan` wait up to d months for the test.
    Wait(Delay, Test<Offset>, Box<Plan>, Box<Plan>),
}

/// Payoffs: "the letters of plans without `L` and `T`. Leaves are `F,month,p,q`, and `H,month,p,q`
/// once cut."
#[derive(Clone, Debug, PartialEq, Eq)]
pub enum Payoff {
    /// `Z`.
    Nothing,
    /// `F`, or `H` where `cut`.
    Leaf {
        cut: bool,
        month: Month,
        from: i64,
        to: i64,
    },
    /// `S`.
    Scale(Amount<Month>, Box<Payoff>),
    /// `B`.
    Both(Box<Payoff>, Box<Payoff>),
    /// `W`.
    Wait(Delay, Test<Month>, Box<Payoff>, Box<Payoff>),
}
