
// What follows is appended to a copy of compiler.rs: the costs that it keeps to itself.

/// `best_compilation`, with the root's cost at probabilities 1.0 and none.
pub fn best_compilation_with_cost<Pk: MiniscriptKey, Ctx: ScriptContext>(
    policy: &Concrete<Pk>,
) -> Result<(Miniscript<Pk, Ctx>, f64), CompilerError> {
    let mut policy_cache = PolicyCache::<Pk, Ctx>::new();
    let x = best_t(&mut policy_cache, policy, 1.0, None)?;
    if !x.ms.ty.mall.safe {
        Err(CompilerError::TopLevelNonSafe)
    } else if !x.ms.ty.mall.non_malleable {
        Err(CompilerError::ImpossibleNonMalleableCompilation)
    } else {
        Ok(((*x.ms).clone(), x.cost_1d(1.0, None)))
    }
}

/// A satisfaction cost and perhaps a dissatisfaction cost.
pub type Pair = (f64, Option<f64>);

/// The cost rules by their names, with both weights 0.5 where there are two branches.
pub fn cost_rule<Ctx: ScriptContext>(name: &str) -> Option<Pair> {
    let pk = CompilerExtData::pk_k::<Ctx>();
    let half = CompilerExtData { branch_prob: Some(0.5), ..pk };
    let rule = match name {
        "PkK" => pk,
        "PkH" => CompilerExtData::pk_h::<Ctx>(),
        "hash" => CompilerExtData::hash(),
        "Multi 2 of 3" => CompilerExtData::multi(2, 3),
        "MultiA 2 of 3" => CompilerExtData::multi_a(2, 3),
        "OrB" => CompilerExtData::or_b(half, half),
        "OrD" => CompilerExtData::or_d(half, half),
        "OrI" => CompilerExtData::or_i(half, half),
        "AndOr" => CompilerExtData::and_or(half, half, half),
        "Thresh 1 of 2" => CompilerExtData::threshold(1, 2, |_| pk),
        "likely over True" => CompilerExtData::cast_likely(CompilerExtData::TRUE),
        "True" => CompilerExtData::TRUE,
        "False" => CompilerExtData::FALSE,
        _ => return None,
    };
    Some((rule.sat_cost, rule.dissat_cost))
}

fn data((sat_cost, dissat_cost): Pair, branch_prob: Option<f64>) -> CompilerExtData {
    CompilerExtData { branch_prob, sat_cost, dissat_cost }
}

fn pair(x: CompilerExtData) -> Pair {
    (x.sat_cost, x.dissat_cost)
}

/// The cost of a cast, by document 01's number of it.
pub fn cost_cast(number: u32, x: Pair) -> Pair {
    let casts = [
        CompilerExtData::cast_check,
        CompilerExtData::cast_dupif,
        CompilerExtData::cast_likely,
        CompilerExtData::cast_unlikely,
        CompilerExtData::cast_verify,
        CompilerExtData::cast_nonzero,
        CompilerExtData::cast_true,
        CompilerExtData::cast_swap,
        CompilerExtData::cast_alt,
        CompilerExtData::cast_zeronotequal,
    ];
    pair(casts[number as usize](data(x, None)))
}

/// The cost of a pair, by its kind, at the weights of its sides.
pub fn cost_pair(kind: u16, l: Pair, r: Pair, weights: [f64; 2]) -> Pair {
    let (l, r) = (data(l, Some(weights[0])), data(r, Some(weights[1])));
    pair(match kind {
        49 => CompilerExtData::and_b(l, r),
        50 => CompilerExtData::and_v(l, r),
        51 => CompilerExtData::or_b(l, r),
        52 => CompilerExtData::or_d(l, r),
        53 => CompilerExtData::or_c(l, r),
        _ => CompilerExtData::or_i(l, r),
    })
}

/// The cost of an AndOr at the weights of its first two sides and of its third.
pub fn cost_and_or(a: Pair, b: Pair, c: Pair, weights: [f64; 2]) -> Pair {
    let first = Some(weights[0]);
    pair(CompilerExtData::and_or(data(a, first), data(b, first), data(c, Some(weights[1]))))
}

/// The cost of a candidate at two probabilities.
pub fn cost_at<Pk: MiniscriptKey, Ctx: ScriptContext>(ms: Miniscript<Pk, Ctx>, cost: Pair, sat: f64, dissat: Option<f64>) -> f64 {
    AstElemExt { ms: Arc::new(ms), comp_ext_data: data(cost, None) }.cost_1d(sat, dissat)
}

/// The cost of a Thresh.
pub fn cost_threshold(k: usize, subs: &[Pair]) -> Pair {
    pair(CompilerExtData::threshold(k, subs.len(), |i| data(subs[i], None)))
}
