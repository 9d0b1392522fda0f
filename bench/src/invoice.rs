//! A printer's invoice as a settlement of exactly so many records: payment, terms, VAT and totals first,
//! then ever more taxes, allowances, charges and preceding invoices, as a collective invoice has them; one of
//! VAT breakdowns alone, and one of tax totals alone.

use compare::tree::Tree;

fn leaf(name: &str, text: &str) -> Tree {
    Tree::leaf(name, text)
}

fn group(name: &str, children: impl Into<Vec<Tree>>) -> Tree {
    Tree::group(name, children.into())
}

fn date(name: &str, text: &str) -> Tree {
    group(name, [leaf("DateTimeString", text).with("format", "102")])
}

/// The part that every invoice has: 16 records with the settlement.
fn core() -> Vec<Tree> {
    vec![
        leaf("PaymentReference", "RG-2024-004711"),
        leaf("InvoiceCurrencyCode", "EUR"),
        group(
            "SpecifiedTradeSettlementPaymentMeans",
            [
                leaf("TypeCode", "58"),
                group("PayeePartyCreditorFinancialAccount", [leaf("IBANID", "DE02120300000000202051")]),
            ],
        ),
        group("SpecifiedTradePaymentTerms", [date("DueDateDateTime", "20240315")]),
        group(
            "SpecifiedTradeSettlementHeaderMonetarySummation",
            [
                leaf("LineTotalAmount", "1250.00"),
                leaf("TaxBasisTotalAmount", "1225.00"),
                leaf("GrandTotalAmount", "1457.75"),
                leaf("DuePayableAmount", "1457.75"),
            ],
        ),
    ]
}

fn tax(i: usize) -> Tree {
    group(
        "ApplicableTradeTax",
        [
            leaf("CalculatedAmount", &format!("{}.75", 232 + i)),
            leaf("TypeCode", "VAT"),
            leaf("BasisAmount", &format!("{}.00", 1225 + i)),
            leaf("CategoryCode", "S"),
            leaf("DueDateTypeCode", "5"),
            leaf("RateApplicablePercent", if i.is_multiple_of(2) { "19.00" } else { "7" }),
        ],
    )
}

fn allowance_charge(i: usize) -> Tree {
    let vat = [leaf("TypeCode", "VAT"), leaf("CategoryCode", "S"), leaf("RateApplicablePercent", "19.00")];
    group(
        "SpecifiedTradeAllowanceCharge",
        [
            group("ChargeIndicator", [leaf("Indicator", if i.is_multiple_of(3) { "true" } else { "false" })]),
            leaf("CalculationPercent", "2.00"),
            leaf("BasisAmount", "1250.00").with("currencyID", "EUR"),
            leaf("ActualAmount", "25.00"),
            leaf("ReasonCode", "95"),
            leaf("Reason", "Discount on paper stock"),
            group("CategoryTradeTax", vat),
        ],
    )
}

fn preceding(i: usize) -> Tree {
    let number = leaf("IssuerAssignedID", &format!("RG-2023-{:06}", 1000 + i));
    group("InvoiceReferencedDocument", [number, date("FormattedIssueDateTime", "20231130")])
}

fn payee() -> Tree {
    group(
        "PayeeTradeParty",
        [
            leaf("GlobalID", "4000001123452").with("schemeID", "0088"),
            leaf("Name", "Druckerei Müller Factoring GmbH"),
            group("SpecifiedLegalOrganization", [leaf("ID", "HRB 12345").with("schemeID", "0002")]),
        ],
    )
}

fn period() -> Tree {
    group("BillingSpecifiedPeriod", [date("StartDateTime", "20240201"), date("EndDateTime", "20240229")])
}

/// Children put into a settlement as long as they fit.
struct Filling {
    children: Vec<Tree>,
    left: usize,
}

impl Filling {
    fn of(records: usize, children: Vec<Tree>) -> Self {
        let left = records - 1 - children.iter().map(Tree::records).sum::<usize>();
        Filling { children, left }
    }

    fn add(&mut self, child: Tree) -> bool {
        let fits = child.records() <= self.left;
        if fits {
            self.left -= child.records();
            self.children.push(child);
        }
        fits
    }

    /// The settlement, filled up by blank accounting references.
    fn settlement(mut self) -> Tree {
        while self.add(leaf("ReceivableSpecifiedTradeAccountingAccount", "")) {}
        group("ApplicableHeaderTradeSettlement", self.children)
    }
}

/// A settlement of `records` records, at least 16.
pub fn settlement(records: usize) -> Tree {
    let mut all = Filling::of(records, core());
    all.add(tax(0));
    all.add(payee());
    all.add(period());
    let mut i = 1;
    while all.add(allowance_charge(i)) | all.add(tax(i)) | all.add(preceding(i)) {
        i += 1;
    }
    all.settlement()
}

/// A settlement of `records` records that has VAT breakdowns alone.
pub fn taxes(records: usize) -> Tree {
    let mut all = Filling::of(records, Vec::new());
    let mut i = 0;
    while all.add(tax(i)) {
        i += 1;
    }
    all.settlement()
}

/// A settlement of `records` records that has tax totals alone: but for two records a number each.
pub fn tax_totals(records: usize) -> Tree {
    let totals: Vec<Tree> = (2..records).map(|i| leaf("TaxTotalAmount", &format!("{}.75", 232 + i))).collect();
    group("ApplicableHeaderTradeSettlement", [group("SpecifiedTradeSettlementHeaderMonetarySummation", totals)])
}
